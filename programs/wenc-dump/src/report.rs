//! Reports of a file: parts that contain others, each opened and closed.

use super::fault::Fault;
use super::fold::Names;
use std::ffi::OsStr;
use std::io;
use std::ops::Range;
use wenc::tree::{Encoded, Node, Space, UsedIndex};
use wenc::{CoreItem, Item, Producer};

/// A format of reports.
pub trait Report {
    /// Begins a file with this name.
    fn begin(&mut self, file: &OsStr) -> io::Result<()>;

    /// Opens a part, within the innermost open part.
    fn open(&mut self, part: &Part) -> io::Result<()>;

    /// Reports that nothing is read from this byte offset to the end of the innermost open part,
    /// what can't be read there, and the bytes.
    fn unread(&mut self, place: usize, what: &str, rest: Rest) -> io::Result<()>;

    /// Reports an index that is out of range, in the item at this byte offset, which is the
    /// innermost open part.
    fn out_of_range(&mut self, place: usize, index: &UsedIndex) -> io::Result<()>;

    /// Flushes the output.
    fn flush(&mut self) -> io::Result<()>;

    /// Closes the innermost open part.
    fn close(&mut self) -> io::Result<()>;

    /// Ends the file with its first fault, if any, and closes all open parts.
    fn end(&mut self, fault: Option<&Fault>) -> io::Result<()>;
}

/// The bytes of the innermost open part that aren't read.
#[derive(Clone, Copy)]
pub struct Rest<'a> {
    pub bytes: &'a [u8],
    /// Whether they are reported with an open part, or aren't at all, since they are those of many
    /// parts.
    pub are_reported: bool,
}

/// A part of a file. Byte offsets are those of the file.
pub enum Part<'a> {
    /// The file, a component or a core module.
    File(Range<usize>, Content<'a>),
    Section {
        /// Its byte offsets, from its id on.
        range: Range<usize>,
        id: u8,
        /// The word for its kind; `None` if the id is unknown.
        word: Option<&'static str>,
        /// The number of its items; `None` if it isn't a section of items, or that can't be read.
        count: Option<u32>,
        /// The byte offset of its content, after its size.
        content: usize,
        /// The fields of a section of a core module.
        core: Option<Core<'a>>,
    },
    Item {
        range: Range<usize>,
        /// Its indices; `None` if items of its kind have none.
        label: Option<Label<'a>>,
        content: Content<'a>,
        /// Its bytes; empty if parts of it are reported.
        bytes: &'a [u8],
        /// The item itself.
        item: Source<'a>,
    },
    /// A part of a custom section.
    Entry(Entry<'a>),
}

/// An item as it is read.
#[derive(Clone, Copy)]
pub enum Source<'a> {
    Component(&'a Item<'a>),
    /// One of the core module that begins at this byte offset.
    Core(&'a CoreItem<'a>, usize),
}

impl Source<'_> {
    /// Calls a function with the values of the item, whose byte offsets are those of the file.
    pub fn each_part(self, file: &[u8], visit: &mut dyn FnMut(Encoded)) -> bool {
        match self {
            Self::Component(item) => item.each_encoded_part(file, visit),
            Self::Core(item, at) => item.each_encoded_part(&file[at..], |step| {
                visit(match step {
                    Encoded::Begin { field, offset, node } => {
                        Encoded::Begin { field, offset: at + offset, node }
                    }
                    Encoded::Bytes(range, node) => {
                        Encoded::Bytes(at + range.start..at + range.end, node)
                    }
                    step => step,
                });
            }),
        }
    }
}

/// The part of a section of a core module that isn't in its items.
pub struct Core<'a> {
    /// The name of a custom section.
    pub name: Option<&'a str>,
    /// The contents that are reported.
    pub contents: Contents,
    /// Its content; empty if its items are reported.
    pub bytes: &'a [u8],
}

/// The contents of a custom section that are reported.
#[derive(Clone, Copy, PartialEq, Eq)]
pub enum Contents {
    Names,
    Producers,
    /// Nothing.
    Other,
}

/// A part of a custom section.
pub enum Entry<'a> {
    /// The debug name of the item with this index in this space, or of the component.
    Name(Option<(Space, u32)>, &'a str),
    Tool(Producer<'a>),
}

/// The indices of an item.
pub struct Label<'a> {
    pub space: Space,
    /// The first of them; `None` if an item before it can't be read.
    pub from: Option<u64>,
    pub count: u32,
    /// The debug name of the first.
    pub name: Option<&'a str>,
}

/// The content of a file or an item.
pub enum Content<'a> {
    /// A component, with its own debug name, whose sections are reported.
    Component(Option<&'a str>),
    /// A core module, whose sections are reported.
    Module,
    /// A custom section with this name, the number of bytes after it, and what is reported of them.
    Custom(&'a str, usize, Contents),
    /// Another item, with the debug names that its indices may have.
    Node(&'a Node<'a>, Names<'a>),
}
