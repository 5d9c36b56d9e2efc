//! Parts of a file that can't be read.

use super::sizes::WrongSize;
use super::words::Counted;
use std::fmt::{self, Display};
use std::io;
use wenc::wit::Note;
use wenc::{Cause, Format, Found, Part, ReadError};

/// The exit status if memory ran out.
pub const NO_MEMORY: u8 = 3;

/// A part of a file that can't be read.
#[derive(Debug)]
pub struct Fault {
    kind: Kind,
    /// The byte offset of the part.
    pub place: Option<usize>,
}

/// The kind of a part that can't be read.
#[derive(Debug)]
pub enum Kind {
    /// The file, which can't be opened or read.
    Input(io::Error),
    /// The part for which an allocation failed, and all that follows.
    NoMemory,
    /// A part of a component or of a core module.
    Read(ReadError),
    /// A section of a core module with this unknown id.
    UnknownSection(u8),
    /// A section with a wrong size.
    Size(WrongSize),
    /// A byte offset that a file with so many bytes doesn't have.
    Beyond(usize, usize),
    /// This many indices that are out of range.
    OutOfRange(usize),
    /// A part of a component's world that isn't written as WIT.
    Unwritten(Note),
}

impl From<Kind> for Fault {
    fn from(kind: Kind) -> Self {
        Self { kind, place: None }
    }
}

impl From<ReadError> for Fault {
    fn from(error: ReadError) -> Self {
        if error.is_memory() {
            return Kind::NoMemory.into();
        }
        Self::new(Kind::Read(error), error.offset)
    }
}

impl Fault {
    /// Creates the fault of a part at this byte offset.
    pub fn new(kind: Kind, place: usize) -> Self {
        Self { kind, place: Some(place) }
    }

    /// Converts the error of opening or reading a file.
    pub fn of_input(error: io::Error) -> Self {
        if error.kind() == io::ErrorKind::OutOfMemory { Kind::NoMemory } else { Kind::Input(error) }
            .into()
    }

    /// Returns the words for the part, which follow its byte offset in text.
    pub fn words(&self) -> &'static str {
        let error = match self.kind {
            Kind::Read(ref error) => error,
            Kind::UnknownSection(_) => return "unknown section",
            Kind::Size(_) => return "section of another size",
            _ => return "items that aren't read",
        };
        match (error.part, error.format, error.id) {
            (Part::Header, Format::Component, _) => "no component's header",
            (Part::Header, ..) => "no core module's header",
            (_, Format::Names, _) => "names that aren't read",
            (_, Format::Producers, _) => "producers that aren't read",
            (Part::Section, _, Some(0)) => "no name",
            (Part::Section, _, Some(_)) => "unknown section",
            (Part::Section, Format::Component, _) => "no section",
            (Part::Section, ..) => "no core section",
            (Part::Count, ..) => "no count",
            (Part::Rest, ..) => "bytes behind the last item",
            (Part::Depth, ..) => "too deep component",
            _ => "items that aren't read",
        }
    }

    /// Returns the byte offset that makes the part unreadable, and why, unless the message says it.
    pub fn cause(&self) -> Option<(usize, String)> {
        let Kind::Read(error) = self.kind else { return None };
        match (error.part, error.cause, error.id) {
            (Part::Header, Cause::Header(Found::Version(version)), _) => {
                Some((error.offset + 4, format!("version {version:#x}")))
            }
            (Part::Header, Cause::Header(Found::Other(first)), _) => {
                Some((error.offset, first.to_string()))
            }
            (Part::Header | Part::Rest | Part::Depth, ..) => None,
            (Part::Section, _, Some(1..)) if error.format == Format::Component => None,
            (_, cause, _) => Some((error.place(), cause.to_string())),
        }
    }

    /// Returns what is expected instead of the byte that is wrong, if it is one of few.
    pub fn expected(&self) -> Option<String> {
        match self.kind {
            Kind::Read(ReadError { cause: Cause::Byte { expected, .. }, .. }) => {
                Some(expected.to_string())
            }
            _ => None,
        }
    }

    /// Returns the exit status of the program.
    pub fn status(&self) -> u8 {
        match self.kind {
            Kind::NoMemory => NO_MEMORY,
            _ => 1,
        }
    }
}

impl Display for Fault {
    fn fmt(&self, f: &mut fmt::Formatter<'_>) -> fmt::Result {
        let place = self.place.unwrap_or_default();
        match self.kind {
            Kind::Input(ref error) => error.fmt(f),
            Kind::NoMemory => f.write_str("memory ran out"),
            Kind::Read(ReadError { offset: 0, cause: Cause::Header(Found::Nothing), .. }) => {
                f.write_str("no component's header at 0x0: found an empty file")
            }
            Kind::Read(error) => error.fmt(f),
            Kind::UnknownSection(id) => write!(f, "unknown section {id} at {place:#x}"),
            Kind::Size(WrongSize { place, stated, end }) => {
                let by = Counted(stated.abs_diff(end), "byte");
                let longer = if end > stated { "longer" } else { "shorter" };
                write!(f, "the section at {place:#x} may be {by} {longer}")
            }
            Kind::Beyond(offset, len) => {
                write!(f, "no byte at {offset:#x}, the file has {}", Counted(len, "byte"))
            }
            Kind::OutOfRange(1) => f.write_str("1 index is out of range"),
            Kind::OutOfRange(count) => write!(f, "{count} indices are out of range"),
            Kind::Unwritten(note) => note.fmt(f),
        }
    }
}
