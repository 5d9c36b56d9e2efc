//! Why definitions can't be followed.

use crate::tree::Space;
use core::fmt;

/// Why an index can't be followed to its definition. A place is the byte offset of the item or
/// declaration that has the index, from the start of the outermost component.
///
/// Needs the feature `scope`.
///
/// It isn't an [`Error`](crate::Error), which is about encoding.
#[derive(Clone, Copy, Debug, PartialEq, Eq)]
#[non_exhaustive]
pub enum ScopeFault {
    /// The space has no such index before the item.
    OutOfRange {
        /// The byte offset of the item.
        place: usize,
        /// The index space.
        space: Space,
        /// The index.
        index: u32,
        /// The number of indices in the space before the item; 0 if there is no such scope.
        count: u64,
    },
    /// The instance has no export with the name that an alias has.
    NoExport {
        /// The byte offset of the alias.
        place: usize,
        /// The space that it is expected in.
        space: Space,
    },
    /// The instance has an export with the name that an alias has, of another kind.
    OtherExport {
        /// The byte offset of the alias.
        place: usize,
        /// The space that it is expected in.
        space: Space,
        /// The space that it is in.
        found: Space,
    },
    /// What is meant depends on items that can't be read (see
    /// [`Definitions::past_faults`](super::Definitions::past_faults)).
    Unread {
        /// The byte offset of the item that refers to it.
        place: usize,
        /// The space that it is in.
        space: Space,
        /// The byte offset from which on items can't be read.
        unread: usize,
    },
    /// The type of a component, an instance or a core module is a type of another kind.
    OtherType {
        /// The byte offset of the import or the declaration with that type.
        place: usize,
        /// The space of the component, the instance or the core module.
        space: Space,
    },
    /// It is reached through more than 100 instances, or in more than 2000 steps, or there are too
    /// many instances (see [`Definitions`](super::Definitions)).
    TooDeep {
        /// The byte offset of the item that refers to it.
        place: usize,
    },
    /// It depends on what a core module exports, whose bytes aren't read.
    Opaque {
        /// The byte offset of the item that refers to it.
        place: usize,
    },
    /// An allocation failed.
    NoMemory {
        /// The byte offset of the item that refers to it.
        place: usize,
    },
}

impl ScopeFault {
    /// Returns the byte offset of the item or declaration that has the index.
    pub fn place(&self) -> usize {
        match *self {
            Self::OutOfRange { place, .. }
            | Self::NoExport { place, .. }
            | Self::OtherExport { place, .. }
            | Self::Unread { place, .. }
            | Self::OtherType { place, .. }
            | Self::TooDeep { place }
            | Self::Opaque { place }
            | Self::NoMemory { place } => place,
        }
    }
}

impl fmt::Display for ScopeFault {
    #[inline]
    fn fmt(&self, f: &mut fmt::Formatter<'_>) -> fmt::Result {
        match *self {
            Self::OutOfRange { place, space, index, count } => {
                write!(f, "no {space} {index} at {place:#x}: the space has {count}")
            }
            Self::NoExport { place, space } => {
                write!(f, "no {space} is exported by the name at {place:#x}")
            }
            Self::OtherExport { place, space, found } => {
                write!(f, "no {space} is exported by the name at {place:#x}: found {found}")
            }
            Self::Unread { place, space, unread } => {
                write!(f, "the {space} at {place:#x} depends on what isn't read at {unread:#x}")
            }
            Self::OtherType { place, space } => {
                write!(f, "the type at {place:#x} is of no {space}")
            }
            Self::TooDeep { place } => {
                write!(f, "what is meant at {place:#x} is reached through too many instances")
            }
            Self::Opaque { place } => {
                write!(f, "what is meant at {place:#x} depends on a core module")
            }
            Self::NoMemory { place } => write!(f, "no memory at {place:#x}"),
        }
    }
}

impl core::error::Error for ScopeFault {}
