//! Why bytes can't be read, and from which byte on.

use super::Found;
use crate::proved::wenc_read::{Expected, Refusal};
use crate::{Error, SectionId};
use core::fmt;
use core::iter::FusedIterator;
use core::ops::RangeInclusive;

/// Why bytes can't be read, and from which byte on. Each place is a byte offset.
///
/// Needs the feature `walk`.
///
/// ```
/// use wenc::{Cause, Sections};
///
/// // an import of a function, of type 0
/// let component = b"\0asm\x0d\0\x01\0\x07\x05\x01\x40\0\x01\0\x0a\x06\x01\0\x01f\x01\0";
/// let cause = |bytes: &[u8]| {
///     let error = Sections::new(bytes).ok()?.items().find_map(Result::err)?;
///     Some((error.cause, error.cause.to_string()))
/// };
/// assert_eq!(cause(component), None);
///
/// // its kind is changed
/// let mut changed = *component;
/// changed[21] = 9;
/// let Some((Cause::Byte { place: 21, byte: 9, expected }, text)) = cause(&changed) else {
///     panic!("the byte isn't expected")
/// };
/// assert_eq!(expected.ranges().collect::<Vec<_>>(), [0..=5]);
/// assert_eq!(text, "0x09 at 0x15, where 0x00 to 0x05 is expected");
///
/// // its last byte is missing
/// let few = Cause::Few { place: 17, needed: 6, len: 5 };
/// assert_eq!(cause(&component[..22]).map(|(cause, _)| cause), Some(few));
/// ```
#[derive(Clone, Copy, Debug, PartialEq, Eq, Hash)]
#[non_exhaustive]
pub enum Cause {
    /// An allocation failed.
    NoMemory,
    /// Bytes that don't begin with the header, and what they are instead.
    Header(Found),
    /// A component that is nested deeper than this limit.
    Limit(usize),
    /// A nested component that was changed can't be encoded again.
    Unwritten(Error),
    /// A byte in place of which others are expected.
    Byte {
        /// Its byte offset.
        place: usize,
        /// The byte.
        byte: u8,
        /// The expected bytes; none where the end is expected.
        expected: Bytes,
    },
    /// A byte of a text that isn't UTF-8.
    Text {
        /// Its byte offset: up to it the text is UTF-8, as of
        /// [`valid_up_to`](core::str::Utf8Error::valid_up_to).
        place: usize,
        /// The byte.
        byte: u8,
    },
    /// A number that is too large, or has too many bytes.
    Number {
        /// The byte offset of its first byte.
        place: usize,
        /// The maximum number of its bits.
        bits: u8,
    },
    /// There are too few bytes, for a text, for the members of a list or for what is next. The
    /// bytes that are there may be wrong, too.
    Few {
        /// The byte offset from which on they are needed.
        place: usize,
        /// The number of bytes that are needed, at least.
        needed: u32,
        /// The number of bytes that are there.
        len: usize,
    },
    /// A type in 100 others.
    Deep {
        /// The byte offset of its first byte.
        place: usize,
    },
}

impl Cause {
    /// Converts the error of reading the bytes up to this byte offset.
    #[cold]
    pub(crate) fn new(bytes: &[u8], end: usize, Refusal { left, expected }: Refusal) -> Self {
        let place = end.saturating_sub(left);
        let byte = bytes.get(..end).and_then(|bytes| bytes.get(place)).copied();
        match (expected, byte) {
            (Expected::Bytes(needed), _) => Self::Few { place, needed, len: left },
            (Expected::Bits(bits), _) => Self::Number { place, bits },
            (_, None) => Self::Few { place, needed: 1, len: 0 },
            (Expected::Utf8, Some(byte)) => Self::Text { place, byte },
            (_, Some(byte)) => Self::Byte { place, byte, expected: Bytes(expected.ranges()) },
        }
    }

    /// Returns that a byte isn't the id of a core module's section.
    #[cold]
    pub(crate) fn core_id(place: usize, byte: u8) -> Self {
        let last = SectionId::Tag.into();
        Self::Byte { place, byte, expected: Bytes(Expected::From(0, last).ranges()) }
    }

    /// Returns the cause with its byte offset increased by `by`.
    pub(crate) fn moved(mut self, by: usize) -> Self {
        match &mut self {
            Self::Byte { place, .. }
            | Self::Text { place, .. }
            | Self::Number { place, .. }
            | Self::Few { place, .. }
            | Self::Deep { place } => *place = place.saturating_add(by),
            Self::NoMemory | Self::Header(_) | Self::Limit(_) | Self::Unwritten(_) => {}
        }
        self
    }

    /// Returns the byte offset of the cause, or of the end where bytes are missing; `None` if it is
    /// that of the part.
    pub fn place(&self) -> Option<usize> {
        match *self {
            Self::Few { place, len, .. } => Some(place.saturating_add(len)),
            Self::Byte { place, .. }
            | Self::Text { place, .. }
            | Self::Number { place, .. }
            | Self::Deep { place } => Some(place),
            _ => None,
        }
    }

    /// Returns the byte that is found where an item is expected at this byte offset, `Some(None)`
    /// if the bytes end there, and `None` if the item's first byte isn't wrong.
    pub(super) fn at_first(&self, item: usize) -> Option<Option<u8>> {
        match *self {
            Self::Byte { place, byte, .. } if place == item => Some(Some(byte)),
            Self::Few { place, len: 0, .. } if place == item => Some(None),
            _ => None,
        }
    }
}

impl fmt::Display for Cause {
    #[inline]
    fn fmt(&self, f: &mut fmt::Formatter<'_>) -> fmt::Result {
        match *self {
            Self::Byte { place, byte, expected } => {
                write!(f, "{byte:#04x} at {place:#x}, where {expected} is expected")
            }
            Self::Text { place, byte } => write!(f, "{byte:#04x} at {place:#x} isn't UTF-8"),
            Self::Number { place, bits } => {
                write!(f, "the number at {place:#x} has more than {bits} bits")
            }
            Self::Few { place, needed: 1, len: 0 } => write!(f, "the bytes end at {place:#x}"),
            Self::Few { place, needed, len } => {
                let (bytes, are) =
                    (if needed == 1 { "" } else { "s" }, if len == 1 { "is" } else { "are" });
                write!(
                    f,
                    "needs {needed} byte{bytes} or more from {place:#x} on, where {len} {are} left"
                )
            }
            Self::Deep { place } => write!(f, "the type at {place:#x} is in 100 others"),
            Self::NoMemory => f.write_str("no memory"),
            Self::Header(found) => write!(f, "found {found}"),
            Self::Limit(limit) => write!(f, "it is more than {limit} deep"),
            Self::Unwritten(error) => write!(f, "a nested component isn't encoded: {error}"),
        }
    }
}

/// The bytes that are expected in one place, as up to four ranges; none where the end is expected.
///
/// Needs the feature `walk`.
#[derive(Clone, Copy, PartialEq, Eq, Hash)]
pub struct Bytes([(u8, u8); 4]);

impl Bytes {
    /// Returns the ranges, which ascend.
    pub fn ranges(self) -> impl FusedIterator<Item = RangeInclusive<u8>> {
        self.0.into_iter().map(|(first, last)| first..=last).filter(|range| !range.is_empty())
    }
}

/// Writes the ranges in order, or that the end is expected.
impl fmt::Display for Bytes {
    #[inline]
    fn fmt(&self, f: &mut fmt::Formatter<'_>) -> fmt::Result {
        if self.ranges().next().is_none() {
            return f.write_str("the end");
        }
        let last = self.ranges().count().saturating_sub(1);
        for (at, range) in self.ranges().enumerate() {
            f.write_str(match at {
                0 => "",
                _ if at == last => " or ",
                _ => ", ",
            })?;
            write!(f, "{:#04x}", range.start())?;
            if range.start() != range.end() {
                write!(f, " to {:#04x}", range.end())?;
            }
        }
        Ok(())
    }
}

impl fmt::Debug for Bytes {
    #[inline]
    fn fmt(&self, f: &mut fmt::Formatter<'_>) -> fmt::Result {
        f.debug_set().entries(self.ranges()).finish()
    }
}
