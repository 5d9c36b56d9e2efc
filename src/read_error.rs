//! Why bytes can't be read.

#[cfg(feature = "tree")]
use crate::proved::wenc_list::ListRefusal;
use crate::proved::wenc_list::{SectionItems, SectionRefusal, part_of};
use crate::proved::wenc_read::{NestedRefusal, Refusal};
use crate::{ComponentSectionId, Error};
use core::fmt;
use found::item_of;

pub use cause::{Bytes, Cause};
pub use found::{First, Found};

mod cause;
mod found;

/// What can't be read: a part of a component, of a core module, of debug names or of producers.
///
/// Needs the feature `walk`.
///
/// ```
/// use wenc::{Cause, Part, list};
///
/// let mut bytes = *b"\0asm\x0d\0\x01\0\x07\x05\x01\x40\0\x01\0\x0a\x06\x01\0\x01f\x01\0";
/// // The count of imports becomes two.
/// bytes[17] = 2;
/// let error = list(&bytes).unwrap_err();
/// assert_eq!((error.section, error.id), (15, Some(10)));
/// assert_eq!((error.offset, error.part), (23, Part::Item(1)));
/// assert_eq!(error.cause, Cause::Few { place: 23, needed: 1, len: 0 });
/// assert_eq!(
///     error.to_string(),
///     "bad item 1 at 0x17 in the section at 0xf: the section ends where an import is expected",
/// );
/// ```
#[derive(Clone, Copy, Debug, PartialEq, Eq, Hash)]
#[non_exhaustive]
pub struct ReadError {
    /// What is read.
    pub format: Format,
    /// The byte offset of the section with the part, or of the part if it is in none.
    pub section: usize,
    /// The id of that section, unless it lacks a size within bounds.
    pub id: Option<u8>,
    /// The byte offset of the first part that can't be read.
    pub offset: usize,
    /// That part.
    pub part: Part,
    /// Why it can't be read.
    pub cause: Cause,
}

/// What is read.
///
/// Needs the feature `walk`.
#[derive(Clone, Copy, Debug, PartialEq, Eq, Hash)]
#[non_exhaustive]
pub enum Format {
    /// A component.
    Component,
    /// A core module.
    Module,
    /// The data of a section of debug names.
    Names,
    /// The data of a producers section.
    Producers,
}

/// The first part that can't be read.
///
/// Needs the feature `walk`.
#[derive(Clone, Copy, Debug, PartialEq, Eq, Hash)]
#[non_exhaustive]
pub enum Part {
    /// The header.
    Header,
    /// A section: it has an unknown id, lacks a size within bounds, or is a custom section without
    /// a name. Of debug names, a subsection; of producers, a field or a tool.
    Section,
    /// The number of a section's items.
    Count,
    /// An item, with the number of items before it.
    Item(u32),
    /// Bytes after the last item.
    Rest,
    /// A component that is nested deeper than is asked for.
    Depth,
}

impl ReadError {
    #[cold]
    fn new(format: Format, part: Part, offset: usize, cause: Cause) -> Self {
        Self { format, section: offset, id: None, offset, part, cause }
    }

    /// Returns that memory has run out.
    pub(crate) fn memory() -> Self {
        Self::new(Format::Component, Part::Section, 0, Cause::NoMemory)
    }

    /// Returns that these bytes, at this byte offset, have no header.
    #[cold]
    pub(crate) fn header(format: Format, offset: usize, bytes: &[u8]) -> Self {
        Self::new(format, Part::Header, offset, Cause::Header(Found::of(bytes)))
    }

    /// Returns why a section, or what is like one, can't be read at this byte offset, of what ends
    /// at `end`.
    #[cold]
    pub(crate) fn frame(
        format: Format,
        bytes: &[u8],
        (offset, end): (usize, usize),
        cause: Cause,
    ) -> Self {
        let raw = bytes.get(offset..end).and_then(|bytes| part_of(bytes).ok());
        let id = raw.map(|((id, _), _)| id);
        Self { id, ..Self::new(format, Part::Section, offset, cause) }
    }

    /// Returns that a component with this byte offset, in the section at another, is nested deeper
    /// than `limit`.
    #[cold]
    pub(crate) fn depth(section: usize, offset: usize, limit: usize) -> Self {
        let id = Some(ComponentSectionId::Component.into());
        let error = Self::new(Format::Component, Part::Depth, offset, Cause::Limit(limit));
        Self { section, id, ..error }
    }

    /// Converts the proved error of these bytes.
    #[cfg(feature = "tree")]
    pub(crate) fn of_list(bytes: &[u8], refusal: ListRefusal<'_>) -> Self {
        match refusal {
            ListRefusal::Memory => Self::memory(),
            ListRefusal::Header => Self::header(Format::Component, 0, bytes),
            ListRefusal::Section { place, refusal } => {
                Self::of_section(bytes, bytes.len(), place, refusal)
            }
            ListRefusal::Item { count, left, refusal } => {
                Self::of_item(bytes, count, left, refusal)
            }
        }
    }

    /// Returns why no section can be read at this byte offset, in sections that end at `end`.
    #[cold]
    pub(crate) fn of_section(
        bytes: &[u8],
        end: usize,
        section: usize,
        refusal: SectionRefusal<'_>,
    ) -> Self {
        match refusal {
            SectionRefusal::Frame(refusal) => {
                let cause = Cause::new(bytes, end, refusal);
                Self::frame(Format::Component, bytes, (section, end), cause)
            }
            SectionRefusal::Count(of, refusal) => {
                let cause = Cause::new(bytes, of.ends, refusal);
                let error = Self::new(Format::Component, Part::Count, of.reached(), cause);
                Self { section, id: Some(of.id), ..error }
            }
        }
    }

    /// Returns why no item can be read next, given what is left of a section with `count` items.
    #[cold]
    pub(crate) fn of_item(
        bytes: &[u8],
        count: u32,
        left: SectionItems<'_>,
        refusal: NestedRefusal,
    ) -> Self {
        let SectionItems { id, place: section, ends, left: more, .. } = left;
        let is_custom = id == ComponentSectionId::CoreCustom.into();
        let (part, offset) = match (more, left.reached()) {
            (0, offset) => (Part::Rest, offset),
            (_, _) if is_custom => (Part::Section, section),
            (_, offset) => (Part::Item(count.saturating_sub(more)), offset),
        };
        let cause = match refusal {
            NestedRefusal::Flat(refusal) => Cause::new(bytes, ends, refusal),
            NestedRefusal::TooDeep(left) => Cause::Deep { place: ends.saturating_sub(left) },
        };
        Self { section, id: Some(id), ..Self::new(Format::Component, part, offset, cause) }
    }

    /// Returns why a part of a core module's section can't be read.
    #[cold]
    pub(crate) fn in_module(
        (section, id): (usize, u8),
        (part, offset): (Part, usize),
        cause: Cause,
    ) -> Self {
        Self { section, id: Some(id), ..Self::new(Format::Module, part, offset, cause) }
    }

    /// Returns why a tool or a field of producers can't be read.
    #[cold]
    pub(crate) fn of_producers(data: &[u8], offset: usize, refusal: Refusal) -> Self {
        let cause = Cause::new(data, data.len(), refusal);
        Self::new(Format::Producers, Part::Section, offset, cause)
    }

    /// Returns the error with its byte offsets increased by `by`: the error of a core module, of
    /// names or of producers in what contains them.
    #[must_use]
    pub fn moved(self, by: usize) -> Self {
        let [section, offset] = [self.section, self.offset].map(|of| of.saturating_add(by));
        Self { section, offset, cause: self.cause.moved(by), ..self }
    }

    /// Returns the byte offset of what is wrong in the part, or of the end where bytes are missing.
    pub fn place(&self) -> usize {
        self.cause.place().unwrap_or(self.offset)
    }

    /// Returns the id of the section whose items can't be read; `None` if it isn't known what can't
    /// be read.
    pub(crate) fn section_id(&self) -> Option<ComponentSectionId> {
        let is_within = matches!(
            (self.format, self.part),
            (Format::Component, Part::Section | Part::Count | Part::Item(_) | Part::Rest)
        );
        self.id.filter(|_| is_within)?.try_into().ok()
    }

    /// Returns whether a section exceeds the component that it is in, so that one of their sizes is
    /// wrong.
    pub(crate) fn is_cut(&self) -> bool {
        (self.format, self.part, self.id) == (Format::Component, Part::Section, None)
    }

    /// Returns whether the part is a section with an unknown id.
    fn is_unknown(&self) -> bool {
        (self.format, self.part) == (Format::Component, Part::Section)
            && matches!(self.id, Some(1..))
    }

    /// Returns whether memory ran out.
    pub fn is_memory(&self) -> bool {
        self.cause == Cause::NoMemory
    }

    /// Writes the part.
    #[inline]
    fn write_part(&self, f: &mut fmt::Formatter<'_>) -> fmt::Result {
        let Self { format, part, offset, section, .. } = *self;
        let what = match (format, part) {
            (Format::Component, Part::Header) => "no component's header",
            (_, Part::Header) => "no core module's header",
            (Format::Names, _) => "bad debug names",
            (Format::Producers, _) => "bad producers",
            (_, Part::Section) if self.id == Some(0) => "custom section without a name",
            (Format::Component, Part::Section) => match self.id {
                Some(id) => {
                    write!(f, "unknown section {id}")?;
                    ""
                }
                None => "bad section",
            },
            (Format::Module, Part::Section) => "bad core section",
            (_, Part::Count) => "bad count",
            (_, Part::Item(number)) => {
                let what = match self.cause {
                    Cause::Deep { .. } => "too deep",
                    _ => "bad",
                };
                write!(f, "{what} item {number}")?;
                ""
            }
            (_, Part::Rest) => "bytes behind the last item",
            (_, Part::Depth) => "components more than ",
        };
        f.write_str(what)?;
        if let Cause::Limit(limit) = self.cause {
            write!(f, "{} deep", limit.saturating_add(1))?;
        }
        write!(f, " at {offset:#x}")?;
        match (format, part) {
            (Format::Component, Part::Count | Part::Item(_) | Part::Rest) => {
                write!(f, " in the section at {section:#x}")
            }
            _ => Ok(()),
        }
    }
}

impl fmt::Display for ReadError {
    #[inline]
    fn fmt(&self, f: &mut fmt::Formatter<'_>) -> fmt::Result {
        let section = self.id.and_then(|id| ComponentSectionId::try_from(id).ok());
        match (self.part, self.cause, section) {
            (_, Cause::NoMemory | Cause::Unwritten(_), _) => return self.cause.fmt(f),
            (Part::Rest | Part::Depth, ..) => return self.write_part(f),
            (Part::Section, ..) if self.is_unknown() => return self.write_part(f),
            _ => self.write_part(f)?,
        }
        let at_first = match (self.format, self.part, section) {
            (Format::Component, Part::Item(_), Some(section)) => {
                self.cause.at_first(self.offset).zip(Some(section))
            }
            _ => None,
        };
        match at_first {
            Some((Some(byte), section)) => {
                write!(f, ": {byte:#04x} where {} is expected", item_of(section))
            }
            Some((None, section)) => {
                write!(f, ": the section ends where {} is expected", item_of(section))
            }
            None => write!(f, ": {}", self.cause),
        }
    }
}

impl core::error::Error for ReadError {}

/// The error of a nested component that can't be encoded again.
impl From<Error> for ReadError {
    fn from(error: Error) -> Self {
        match error {
            Error::NoMemory => Self::memory(),
            _ => Self::new(Format::Component, Part::Section, 0, Cause::Unwritten(error)),
        }
    }
}
