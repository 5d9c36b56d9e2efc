//! The values of items on a page: their shapes once, and what differs for each item.
//!
//! A shape is a list: a letter for the kind of a value, the name of its field, its own name, and
//! what it has in the order of the bytes. There a number is one of bytes of its own, a string after
//! it the numbers of what may stand in each, and a list is a value within it. An item has the
//! number of its shape, and in the order of its shape the length of a text or of bytes, a number,
//! an index with the byte offset of its definition, and the length of a list with the values of its
//! elements. Instead of the byte offset of a definition there is 0 if that isn't known, and
//! -1 - count if the index is out of range.

use super::super::buffer::Buffer;
use super::super::leaf::expected;
use super::super::report::Source;
use std::collections::HashMap;
use std::fmt::{self, Write};
use std::ops::Range;
use wenc::scope::{Definition, Instances, ScopeFault};
use wenc::tree::{Encoded, Node, Scope, Space};

/// The number of bytes of its own that a value has at most if what may stand there is told.
const TAG: usize = 4;

/// The number of bytes, for each of the file, that may be read to know what may stand somewhere.
const PROBES: usize = 16;

/// Texts, each with a number.
#[derive(Default)]
pub struct Numbered {
    numbers: HashMap<String, usize>,
    /// The texts, after commas.
    pub all: Buffer,
}

impl Numbered {
    pub fn number(&mut self, text: String) -> Result<usize, fmt::Error> {
        if let Some(number) = self.numbers.get(&text) {
            return Ok(*number);
        }
        let number = self.numbers.len();
        write!(self.all, "{}{text}", if number == 0 { "" } else { ",\n" })?;
        self.numbers.try_reserve(1).map_err(|_| fmt::Error)?;
        self.numbers.insert(text, number);
        Ok(number)
    }
}

/// What is written of all items.
pub struct Values<'d, 'f> {
    bytes: &'f [u8],
    pub instances: &'d Instances<'d, 'f>,
    pub shapes: Numbered,
    pub expected: Numbered,
    /// What may stand in bytes of values, by hashes of what is before them in their shapes.
    probed: HashMap<u64, Option<usize>>,
    budget: usize,
}

/// An item, or an element of a list.
struct Unit<'d, 'f> {
    shape: Buffer,
    values: Buffer,
    /// A hash of its shape, and of what is around it.
    key: u64,
    /// The declaration or the item that it is within, and the number of types around it.
    of: Option<Definition<'d, 'f>>,
    depth: u32,
}

/// The name of a value.
#[derive(Clone, Copy)]
enum Name {
    Word(&'static str),
    Space(Space),
}

/// A value that is open.
enum Open {
    Option,
    Text(usize),
    /// What has a length that isn't one of few values.
    Number,
    List,
    Other,
}

/// An item that is being written.
struct Writer<'v, 'd, 'f> {
    all: &'v mut Values<'d, 'f>,
    /// The id of its section, of a component.
    id: Option<u8>,
    range: Range<usize>,
    /// The item, of which bytes are changed.
    copy: Vec<u8>,
    units: Vec<Unit<'d, 'f>>,
    open: Vec<Open>,
    /// The field and the bytes of an option, which its value takes over.
    ahead: Option<(&'static str, Option<(usize, usize)>)>,
}

/// Returns a hash of a hash and a number.
fn hash(key: u64, number: u64) -> u64 {
    (key ^ number).wrapping_mul(0x9e37_79b9_7f4a_7c15).rotate_left(29)
}

/// Returns a hash of a hash and a word, which is the same wherever it is the same text in memory.
fn hash_of_word(key: u64, word: &'static str) -> u64 {
    hash(hash(key, word.as_ptr().addr() as u64), word.len() as u64)
}

impl<'d, 'f> Values<'d, 'f> {
    pub fn new(bytes: &'f [u8], instances: &'d Instances<'d, 'f>) -> Self {
        let (shapes, expected, probed) = Default::default();
        let budget = bytes.len().saturating_mul(PROBES).saturating_add(0x1000);
        Self { bytes, instances, shapes, expected, probed, budget }
    }

    /// Returns the definition that begins at this byte offset.
    pub fn definition(&self, offset: usize) -> Option<Definition<'d, 'f>> {
        self.instances.at(offset).filter(|of| of.place() == offset)
    }

    /// Returns the number of the shape of an item, and its values. `id` is that of its section, if
    /// that is one of a component, and `of` its definition, if it has one.
    pub fn item(
        &mut self,
        id: Option<u8>,
        range: &Range<usize>,
        item: Source,
        of: Option<Definition<'d, 'f>>,
    ) -> Result<(usize, String), fmt::Error> {
        let bytes = self.bytes;
        let unit = Unit {
            shape: Buffer::default(),
            values: Buffer::default(),
            key: id.map_or(0, u64::from),
            of,
            depth: 0,
        };
        let mut writer = Writer {
            all: self,
            id,
            range: range.clone(),
            copy: Vec::new(),
            units: vec![unit],
            open: Vec::new(),
            ahead: None,
        };
        let mut done = Ok(());
        item.each_part(bytes, &mut |step| done = done.and_then(|()| writer.step(step)));
        done?;
        let Unit { shape, values, .. } = writer.units.pop().ok_or(fmt::Error)?;
        Ok((self.shapes.number(shape.0)?, values.0))
    }
}

/// Returns the byte offset of what an index refers to, as seen from a definition that is in this
/// many types.
fn target(
    of: Option<Definition>,
    depth: u32,
    scope: Scope,
    space: Space,
    index: u32,
) -> Option<i64> {
    let out = match scope {
        Scope::Component(out) => depth.checked_add(out)?,
        Scope::Type(inner) => depth.checked_sub(inner)?,
    };
    let mut frame = of?.scope();
    for _ in 0..out {
        match frame.outer() {
            Some(outer) => frame = outer,
            None => return Some(-1),
        }
    }
    match frame.get(space, index) {
        Ok(definition) => Some(definition.place() as i64),
        Err(ScopeFault::OutOfRange { count, .. }) => Some(-1 - count as i64),
        Err(_) => None,
    }
}

impl<'d, 'f> Writer<'_, 'd, 'f> {
    /// Returns the item or the element that is being written.
    fn unit(&mut self) -> Result<&mut Unit<'d, 'f>, fmt::Error> {
        self.units.last_mut().ok_or(fmt::Error)
    }

    fn step(&mut self, step: Encoded) -> fmt::Result {
        match step {
            Encoded::Begin { field, offset, node } => {
                if let Some(Open::List) = self.open.last() {
                    self.element(offset)?;
                }
                self.begin(field, node)
            }
            Encoded::Bytes(Range { start, end }, _) => match &mut self.ahead {
                Some((_, bytes)) => {
                    *bytes = Some((start, end));
                    Ok(())
                }
                None => self.own(start, end),
            },
            Encoded::End => self.end(),
            _ => Ok(()),
        }
    }

    /// Begins an element of a list: a declaration has scopes of its own.
    fn element(&mut self, offset: usize) -> fmt::Result {
        let declared = self.all.definition(offset);
        let Unit { key, of, depth, .. } = *self.unit()?;
        let declared = declared.filter(|declared| of != Some(*declared));
        let (of, depth) = declared.map_or((of, depth), |declared| (Some(declared), depth + 1));
        let (shape, values) = Default::default();
        self.units.try_reserve(1).map_err(|_| fmt::Error)?;
        self.units.push(Unit { shape, values, key, of, depth });
        Ok(())
    }

    fn begin(&mut self, field: &'static str, node: Node) -> fmt::Result {
        self.open.try_reserve(1).map_err(|_| fmt::Error)?;
        if let Node::Present(_) = node {
            self.ahead = Some((field, None));
            self.open.push(Open::Option);
            return Ok(());
        }
        let (field, bytes) = self.ahead.take().unwrap_or((field, None));
        let unit = self.unit()?;
        let (kind, name, open) = unit.value(node)?;
        let lead = if unit.shape.0.is_empty() { "" } else { "," };
        for text in [lead, "[\"", kind, "\",\"", field, "\",\""] {
            unit.shape.write_str(text)?;
        }
        unit.key = [kind, field].into_iter().fold(unit.key, hash_of_word);
        unit.key = match name {
            Name::Word(word) => {
                unit.shape.write_str(word)?;
                hash_of_word(unit.key, word)
            }
            Name::Space(space) => {
                write!(unit.shape, "{space}")?;
                hash(unit.key, space as u64)
            }
        };
        unit.shape.write_str("\"")?;
        self.open.push(Open::Other);
        bytes.map_or(Ok(()), |(start, end)| self.own(start, end))?;
        self.open.pop();
        self.open.push(open);
        Ok(())
    }

    /// Writes some bytes of a value's own.
    fn own(&mut self, start: usize, end: usize) -> fmt::Result {
        let text = if let Some(Open::Text(len)) = self.open.last() { *len } else { 0 };
        let len = end - start - text;
        self.unit()?.shape.number(",", len as i64)?;
        if matches!(self.open.last(), Some(Open::Other)) && len <= TAG {
            let mut numbers = [None; TAG];
            for (at, number) in numbers.iter_mut().take(len).enumerate() {
                *number = self.expected(start + at, at)?;
            }
            if numbers != [None; TAG] {
                let shape = &mut self.unit()?.shape;
                for (at, number) in numbers.iter().take(len).enumerate() {
                    let lead = if at == 0 { ",\"" } else { "," };
                    match number {
                        Some(number) => shape.number(lead, *number as i64)?,
                        None => shape.write_str(lead)?,
                    }
                }
                shape.write_str("\"")?;
            }
        }
        let unit = self.unit()?;
        unit.key = hash(unit.key, len as u64);
        Ok(())
    }

    /// Returns the number of what may stand at this byte offset, which is the byte with this number
    /// of those that follow in the shape.
    fn expected(&mut self, offset: usize, number: usize) -> Result<Option<usize>, fmt::Error> {
        let key = hash(self.unit()?.key, number as u64);
        if let Some(found) = self.all.probed.get(&key) {
            return Ok(*found);
        }
        let Some(id) = self.id else { return Ok(None) };
        let at = offset - self.range.start;
        let Some(budget) = self.all.budget.checked_sub(self.range.len()) else { return Ok(None) };
        self.all.budget = budget;
        if self.copy.is_empty() {
            self.copy.try_reserve(self.range.len()).map_err(|_| fmt::Error)?;
            self.copy.extend(&self.all.bytes[self.range.clone()]);
        }
        let found = expected(id, &mut self.copy, at);
        let found =
            found.map(|text| self.all.expected.number(format!("\"{text}\""))).transpose()?;
        self.all.probed.try_reserve(1).map_err(|_| fmt::Error)?;
        self.all.probed.insert(key, found);
        Ok(found)
    }

    fn end(&mut self) -> fmt::Result {
        if let Some(Open::Option) = self.open.pop() {
            return Ok(());
        }
        self.unit()?.shape.write_str("]")?;
        if let Some(Open::List) = self.open.last() {
            let Unit { shape, values, .. } = self.units.pop().ok_or(fmt::Error)?;
            let number = self.all.shapes.number(shape.0)?;
            let around = &mut self.unit()?.values;
            match &*values.0 {
                "" => around.number(",", number as i64)?,
                values => write!(around, ",[{number}{values}]")?,
            }
        }
        Ok(())
    }
}

impl Unit<'_, '_> {
    /// Writes a value itself. Returns the letter of its kind, its name, and what it is as it is
    /// open.
    fn value(&mut self, node: Node) -> Result<(&'static str, Name, Open), fmt::Error> {
        let word = Name::Word;
        Ok(match node {
            Node::Absent | Node::Present(_) => ("a", word(""), Open::Other),
            Node::Number(number) if number < 1 << 53 => {
                self.values.number(",", number as i64)?;
                ("n", word(""), Open::Number)
            }
            Node::Number(number) => {
                write!(self.values, ",\"{number}\"")?;
                ("n", word(""), Open::Number)
            }
            Node::Flag(true) => ("w", word("true"), Open::Other),
            Node::Flag(false) => ("w", word("false"), Open::Other),
            Node::Text(text) => {
                self.values.number(",", text.len() as i64)?;
                ("t", word(""), Open::Text(text.len()))
            }
            Node::Bytes(bytes) => {
                self.values.number(",", bytes.len() as i64)?;
                ("b", word(""), Open::Text(bytes.len()))
            }
            Node::Word(name) => ("w", word(name), Open::Other),
            Node::Index { space, scope, index } | Node::OutOfRange { space, scope, index, .. } => {
                let target = target(self.of, self.depth, scope, space, index).unwrap_or(0);
                self.values.number(",", index.into())?;
                self.values.number(",", target)?;
                ("i", Name::Space(space), Open::Number)
            }
            Node::List(list) => {
                self.values.number(",", list.len() as i64)?;
                ("l", word(""), Open::List)
            }
            Node::Variant(name, _) => ("v", word(name), Open::Other),
            Node::Tuple(_) => ("r", word(""), Open::Other),
            Node::Record(name, _) | Node::Struct(name, _) => ("r", word(name), Open::Other),
        })
    }
}
