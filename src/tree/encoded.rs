//! Which bytes of an item each of its values has.

use super::Node;
use super::fields::{Layout, Named, Part, Place, Tags, Tree};
use super::node::Child;
use crate::{CoreItem, Item};
use core::ops::Range;

/// A step through the bytes of an item, as [`Item::each_encoded_part`] makes them.
#[derive(Clone, Debug)]
#[non_exhaustive]
pub enum Encoded<'a> {
    /// A value begins: the item itself, or one within the value that is open.
    Begin {
        /// The name of the field that it is; a number in a tuple, and empty for elements of lists
        /// and for what options and variants have.
        field: &'static str,
        /// The byte offset of its first byte, also if it has none.
        offset: usize,
        /// The value. What the bytes of another one tell has none of its own, such as whether a
        /// function is asynchronous.
        node: Node<'a>,
    },
    /// The byte offsets of some bytes of the value that is open, apart from those of values within
    /// it, and the value.
    Bytes(Range<usize>, Node<'a>),
    /// The value that is open ends.
    End,
}

impl Item<'_> {
    /// Calls a function with each value of the item that has bytes of its own, apart from those of
    /// the values within it, and with their byte offsets: a number, an index or a string with its
    /// length, the count of a list, what tells the variant. They come in the order of the bytes,
    /// and each byte of the item is in one range. Nothing is allocated.
    ///
    /// `bytes` are those of the outermost component. Returns whether all bytes were told: `false`
    /// if these aren't the bytes that the item was read from.
    ///
    /// ```
    /// use wenc::{ReadError, Sections};
    ///
    /// // the type of a function, and an import of such a function, whose index is padded
    /// let component = b"\0asm\x0d\0\x01\0\x07\x05\x01\x40\0\x01\0\x0a\x07\x01\0\x01f\x01\x80\0";
    /// let item = Sections::new(component)?.items().nth(1).expect("an item")?;
    /// let mut found = Vec::new();
    /// assert!(item.each_encoded(component, |range, node| {
    ///     found.push((range, format!("{node:?}")));
    /// }));
    /// let places: Vec<_> = found.iter().map(|(range, _)| range.clone()).collect();
    /// assert_eq!(places, [18..19, 19..21, 21..22, 22..24]);
    /// assert!(found[1].1.contains("Text(\"f\")") && found[3].1.contains("index: 0"));
    /// # Ok::<(), ReadError>(())
    /// ```
    pub fn each_encoded(
        &self,
        bytes: &[u8],
        mut visit: impl FnMut(Range<usize>, Node<'_>),
    ) -> bool {
        each_encoded(&self.view, &self.range, bytes, &mut visit)
    }

    /// Calls a function with each value of the item as it begins and ends, and with its bytes
    /// between, in their order: the values of [`each_encoded`](Self::each_encoded) with those
    /// around them and the names of fields. Nothing is allocated.
    ///
    /// `bytes` are those of the outermost component. Returns whether all bytes were told.
    ///
    /// ```
    /// use wenc::tree::Encoded;
    /// use wenc::{ReadError, Sections};
    ///
    /// // the type of a function, and an import of such a function
    /// let component = b"\0asm\x0d\0\x01\0\x07\x05\x01\x40\0\x01\0\x0a\x06\x01\0\x01f\x01\0";
    /// let item = Sections::new(component)?.items().nth(1).expect("an item")?;
    /// let mut fields = Vec::new();
    /// assert!(item.each_encoded_part(component, |step| {
    ///     if let Encoded::Begin { field, offset, .. } = step {
    ///         fields.push((field, offset));
    ///     }
    /// }));
    /// // the name of the import without its options, its type, and the index of that
    /// let [.., name, ty, index] = fields[..] else { panic!("it has fields") };
    /// assert_eq!((name, ty, index), (("name", 19), ("ty", 21), ("", 22)));
    /// # Ok::<(), ReadError>(())
    /// ```
    pub fn each_encoded_part(&self, bytes: &[u8], mut visit: impl FnMut(Encoded<'_>)) -> bool {
        each_part(&self.view, &self.range, bytes, true, &mut visit)
    }
}

impl CoreItem<'_> {
    /// Does what [`Item::each_encoded`] does, given the bytes of the core module.
    ///
    /// ```
    /// use wenc::{CoreSections, ReadError};
    ///
    /// // an export of function 5
    /// let module = b"\0asm\x01\0\0\0\x07\x05\x01\x01f\0\x05";
    /// let item = CoreSections::new(module)?.next().expect("a section")?.items().next().unwrap()?;
    /// let mut places = Vec::new();
    /// assert!(item.each_encoded(module, |range, _| places.push(range)));
    /// assert_eq!(places, [11..13, 13..14, 14..15]);
    /// # Ok::<(), ReadError>(())
    /// ```
    pub fn each_encoded(
        &self,
        module: &[u8],
        mut visit: impl FnMut(Range<usize>, Node<'_>),
    ) -> bool {
        each_encoded(&self.view, &self.range, module, &mut visit)
    }

    /// Does what [`Item::each_encoded_part`] does, given the bytes of the core module.
    pub fn each_encoded_part(&self, module: &[u8], mut visit: impl FnMut(Encoded<'_>)) -> bool {
        each_part(&self.view, &self.range, module, true, &mut visit)
    }
}

/// Calls a function with each value within an item that has bytes of its own, of these bytes.
fn each_encoded(
    item: &dyn Tree,
    range: &Range<usize>,
    bytes: &[u8],
    visit: &mut dyn FnMut(Range<usize>, Node<'_>),
) -> bool {
    each_part(item, range, bytes, false, &mut |step| {
        if let Encoded::Bytes(range, node) = step {
            visit(range, node);
        }
    })
}

/// Calls a function with the bytes of each value, and if wanted with each value before and after.
fn each_part(
    item: &dyn Tree,
    range: &Range<usize>,
    bytes: &[u8],
    has_values: bool,
    visit: &mut dyn FnMut(Encoded<'_>),
) -> bool {
    let Some(bytes) = bytes.get(..range.end) else { return false };
    let mut places =
        Places { bytes, at: range.start, visit, has_values, is_only: false, is_wrong: false };
    places.value("", Child::new(item, Place::default()));
    !places.is_wrong && places.at == bytes.len()
}

struct Places<'v> {
    /// Those up to the end of the item.
    bytes: &'v [u8],
    /// The byte offset of the next value.
    at: usize,
    visit: &'v mut dyn FnMut(Encoded<'_>),
    /// Whether it is called with values, too.
    has_values: bool,
    /// Whether the next value is what an option or a variant has.
    is_only: bool,
    is_wrong: bool,
}

impl Places<'_> {
    /// Takes bytes that are a value's own.
    fn own(&mut self, len: usize, node: Node<'_>) {
        let end = self.at.saturating_add(len);
        self.is_wrong |= end > self.bytes.len();
        if !self.is_wrong && len > 0 {
            (self.visit)(Encoded::Bytes(self.at..end, node));
            self.at = end;
        }
    }

    /// Takes bytes that tell what a value is.
    fn tag(&mut self, len: u8, value: Child<'_>) {
        if len > 0 {
            self.own(len.into(), value.node());
        }
    }

    /// Returns the next byte.
    fn byte(&self) -> u8 {
        self.bytes.get(self.at).copied().unwrap_or(0)
    }

    /// Takes a number; it is this one if there is one.
    fn number(&mut self, wanted: Option<u64>, node: Node<'_>) {
        let (mut number, mut len) = (0, 0);
        for byte in &self.bytes[self.at..] {
            number |= u64::from(byte & 0x7f).checked_shl(7 * len).unwrap_or(0);
            len += 1;
            if *byte < 0x80 {
                break;
            }
        }
        self.is_wrong |= wanted.is_some_and(|wanted| wanted != number);
        self.own(len as usize, node);
    }

    fn text(&mut self, text: &str, node: Node<'_>) {
        // 32 bits: there are fewer than bytes in memory.
        let before = self.bytes[self.at..].iter().take_while(|byte| **byte >= 0x80).count() + 1;
        // 32 bits: both are at most the number of bytes, which is half of what fits.
        let content = self.bytes.get(self.at + before..).and_then(|rest| rest.get(..text.len()));
        self.is_wrong |= content != Some(text.as_bytes());
        self.own(before.saturating_add(text.len()), node);
    }

    /// Takes a value without fields.
    fn leaf(&mut self, node: Node<'_>, Tags { absent, .. }: Tags) {
        match node {
            Node::Absent => self.own(absent.into(), node),
            Node::Number(number) => self.number(Some(number), node),
            Node::Index { index, .. } => self.number(Some(index.into()), node),
            Node::Text(text) => self.text(text, node),
            Node::Bytes(bytes) => self.own(bytes.len(), node),
            Node::Flag(_) => self.own(1, node),
            Node::List(list) => {
                self.number(u64::try_from(list.len()).ok(), node);
                list.for_each(|child| self.value("", child));
            }
            _ => self.is_wrong = true,
        }
    }

    /// Takes a value, which is the field of this name.
    fn value(&mut self, field: &'static str, value: Child<'_>) {
        if self.is_wrong {
            return;
        }
        if !self.has_values {
            return self.within(value);
        }
        let (field, node) = (if self.is_only { "" } else { field }, value.node());
        self.is_only = matches!(node, Node::Present(_) | Node::Variant(..));
        (self.visit)(Encoded::Begin { field, offset: self.at, node });
        self.within(value);
        (self.visit)(Encoded::End);
        self.is_only = false;
    }

    /// Takes the bytes of a value, with the values within it.
    fn within(&mut self, value: Child<'_>) {
        let (layout, fields) = match value.layout() {
            Ok(laid_out) => laid_out,
            Err(node) => return self.leaf(node, value.tags()),
        };
        match layout {
            Layout::Tag(len) => {
                self.tag(len, value);
                fields.into_iter().flatten().for_each(|(name, child)| self.value(name, child));
            }
            Layout::Parts(parts) => {
                self.implied(&fields, |number| {
                    !parts.iter().any(|part| matches!(part, Part::Field(of) if *of == number))
                });
                for part in parts {
                    match *part {
                        Part::Own(len) => self.tag(len, value),
                        Part::Field(number) => self.field(&fields, number),
                    }
                }
            }
            Layout::Present => {
                self.tag(value.tags().present, value);
                self.field(&fields, 0);
            }
            Layout::Name => self.name(value, &fields),
            Layout::SubType => self.sub_type(value, &fields),
            Layout::RefType => {
                // a reference to an abstract type may be written as one byte
                if matches!(self.byte(), 0x63 | 0x64) {
                    self.field(&fields, 0);
                } else {
                    self.implied(&fields, |number| number == 0);
                }
                self.field(&fields, 1);
            }
        }
    }

    /// Takes the field with this number.
    fn field(&mut self, fields: &Named<'_>, number: usize) {
        match fields.get(number) {
            Some(Some((name, child))) => self.value(name, *child),
            _ => self.is_wrong = true,
        }
    }

    /// Takes the flags and words among some fields, which bytes of the value itself tell.
    fn implied(&mut self, fields: &Named<'_>, is_implied: impl Fn(usize) -> bool) {
        let wanted = fields.iter().enumerate().filter(|(at, _)| self.has_values && is_implied(*at));
        for (field, child) in wanted.filter_map(|(_, field)| *field) {
            let node = child.node();
            if matches!(node, Node::Flag(_) | Node::Word(_)) {
                (self.visit)(Encoded::Begin { field, offset: self.at, node });
                (self.visit)(Encoded::End);
            }
        }
    }

    /// Takes a name, and its options if its first byte tells that it has some.
    fn name(&mut self, value: Child<'_>, fields: &Named<'_>) {
        let has_options = self.byte() == 2;
        self.tag(1, value);
        self.field(fields, 0);
        if has_options {
            let count = self.byte();
            self.number(None, value.node());
            for _ in 0..count {
                let kind = usize::from(self.byte());
                self.tag(1, value);
                // 32 bits: the number of a byte, and one.
                self.field(fields, kind + 1);
            }
        }
    }

    /// Takes a core type with its supertype, unless it is written as the type alone.
    fn sub_type(&mut self, value: Child<'_>, fields: &Named<'_>) {
        // apart from a group, one that isn't final would begin as a module type does
        if self.byte() == 0 {
            self.tag(1, value);
        }
        if matches!(self.byte(), 0x4f | 0x50) {
            self.field(fields, 0);
            self.number(None, value.node());
            self.field(fields, 1);
        } else {
            self.implied(fields, |number| number == 0);
        }
        self.field(fields, 2);
    }
}
