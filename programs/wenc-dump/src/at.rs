//! A report of one byte.

use super::fault::Fault;
use super::leaf::expected;
use super::report::{Part, Report, Rest, Source};
use super::text::Text;
use super::words::Counted;
use std::ffi::OsStr;
use std::io;
use std::mem;
use std::ops::Range;
use wenc::tree::{Encoded, Node, UsedIndex};

/// A report of the parts around a byte, and of what it is.
pub struct At<'t, 'f> {
    text: Text<'t>,
    file: &'f [u8],
    offset: usize,
    /// The number of open parts that don't have the byte.
    outside: usize,
    /// What the byte is in each open part that has it, unless a part within has it.
    open: Vec<Option<String>>,
    /// The id of the innermost section that has it.
    id: u8,
}

/// Returns the words for a value, without those within it.
fn words(node: Node) -> String {
    match node {
        Node::Number(number) => number.to_string(),
        Node::Flag(flag) => flag.to_string(),
        Node::Text(text) => format!("{text:?}"),
        Node::Bytes(bytes) => Counted(bytes.len(), "byte").to_string(),
        Node::Index { space, index, .. } | Node::OutOfRange { space, index, .. } => {
            format!("{space} {index}")
        }
        Node::List(list) => Counted(list.len(), "element").to_string(),
        Node::Word(name) | Node::Variant(name, _) => name.to_owned(),
        Node::Record(name, _) | Node::Struct(name, _) => name.to_owned(),
        Node::Absent => "none".to_owned(),
        Node::Present(_) | Node::Tuple(_) => "some".to_owned(),
    }
}

/// Returns the byte offsets of the value of an item that has this byte, and its words after the
/// names of the fields around it.
fn leaf(item: Source, file: &[u8], offset: usize) -> Option<(Range<usize>, String)> {
    let (mut open, mut found) = (Vec::<(String, String, Option<usize>)>::new(), None);
    item.each_part(file, &mut |step| match step {
        Encoded::Begin { field, node, .. } => {
            // elements have numbers
            let number = open.last_mut().and_then(|(_, _, next)| next.as_mut());
            let name = number.map(|next| (mem::replace(next, *next + 1)).to_string());
            let next = matches!(node, Node::List(_)).then_some(0_usize);
            open.push((name.unwrap_or_else(|| field.to_owned()), words(node), next));
        }
        Encoded::Bytes(range, _) if range.contains(&offset) => {
            let names = open.iter().skip(1).map(|(name, ..)| &**name);
            let names: Vec<&str> = names.filter(|name| !name.is_empty()).collect();
            let words = open.last().map_or("", |(_, words, _)| words);
            let lead = if names.is_empty() { "" } else { ": " };
            found = Some((range, format!("{}{lead}{words}", names.join(", "))));
        }
        Encoded::End => {
            open.pop();
        }
        _ => {}
    });
    found
}

impl<'t, 'f> At<'t, 'f> {
    /// Creates a report of the byte at this offset of a file.
    pub fn new(text: Text<'t>, file: &'f [u8], offset: usize) -> Self {
        Self { text, file, offset, outside: 0, open: Vec::new(), id: 0 }
    }

    /// Returns the byte offsets of a part, and what the byte is if no part within has it.
    fn of(&mut self, part: &Part) -> (Range<usize>, Option<String>) {
        let offset = self.offset;
        match part {
            Part::File(range, _) => (range.clone(), Some("its header".to_owned())),
            Part::Section { range, id, content, count, .. } => {
                self.id = *id;
                let what = match (offset - range.start.min(offset), count) {
                    (0, _) => format!("its id, {id}"),
                    _ if offset < *content => format!("its size, {}", range.end - content),
                    (_, Some(count)) => format!("the number of its items, {count}"),
                    _ => "its content".to_owned(),
                };
                (range.clone(), Some(what))
            }
            Part::Item { range, item, .. } if range.contains(&offset) => {
                let leaf = leaf(*item, self.file, offset);
                let what = leaf.map(|(range, what)| {
                    let bytes = if range.len() == 1 { "" } else { &*format!("{range:#x?} ") };
                    format!("{bytes}{what}")
                });
                let other = match item {
                    Source::Component(_) if what.is_some() => {
                        let mut copy = self.file[range.clone()].to_vec();
                        expected(self.id, &mut copy, offset - range.start)
                    }
                    _ => None,
                };
                let other =
                    other.map_or(String::new(), |other| format!(", where {other} is expected"));
                (range.clone(), what.map(|what| what + &other))
            }
            Part::Item { range, .. } => (range.clone(), None),
            Part::Entry(_) => (0..0, None),
        }
    }

    fn tell(&mut self, what: Option<String>) -> io::Result<()> {
        let Some(what) = what else { return Ok(()) };
        let byte = self.file.get(self.offset).copied().unwrap_or_default();
        self.text.line_of(self.offset, format_args!("{byte:#04x}: {what}"))
    }
}

impl Report for At<'_, '_> {
    fn begin(&mut self, file: &OsStr) -> io::Result<()> {
        self.text.begin(file)
    }

    fn open(&mut self, part: &Part) -> io::Result<()> {
        let (range, what) = if self.outside > 0 { (0..0, None) } else { self.of(part) };
        if !range.contains(&self.offset) {
            self.outside += 1;
            return Ok(());
        }
        // the part around isn't the innermost one
        self.open.iter_mut().last().into_iter().for_each(|around| *around = None);
        self.open.try_reserve(1)?;
        self.open.push(what);
        self.text.open(part)
    }

    fn unread(&mut self, place: usize, what: &str, rest: Rest) -> io::Result<()> {
        if self.outside > 0 || !(place..place + rest.bytes.len()).contains(&self.offset) {
            return Ok(());
        }
        self.open.iter_mut().last().into_iter().for_each(|around| *around = None);
        self.text.unread(place, what, rest)
    }

    fn out_of_range(&mut self, _: usize, _: &UsedIndex) -> io::Result<()> {
        Ok(())
    }

    fn flush(&mut self) -> io::Result<()> {
        self.text.flush()
    }

    fn close(&mut self) -> io::Result<()> {
        if self.outside > 0 {
            self.outside -= 1;
            return Ok(());
        }
        let what = self.open.pop().flatten();
        self.tell(what)?;
        self.text.close()
    }

    fn end(&mut self, _: Option<&Fault>) -> io::Result<()> {
        Ok(())
    }
}
