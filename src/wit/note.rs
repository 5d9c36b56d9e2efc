//! What isn't written as WIT.

use crate::scope::ScopeFault;
use crate::shim::alloc::{AllocError, AllocFailed};
use core::fmt;

/// A part of a component that isn't written as WIT.
///
/// Needs the feature `wit`.
#[derive(Clone, Copy, Debug, PartialEq, Eq)]
#[non_exhaustive]
pub struct Note {
    /// The byte offset of the item, the type or the declaration, from the start of the component.
    pub place: usize,
    /// Why it isn't written.
    pub why: Why,
}

/// Why a part of a component isn't written as WIT.
///
/// Needs the feature `wit`.
#[derive(Clone, Copy, Debug, PartialEq, Eq)]
#[non_exhaustive]
pub enum Why {
    /// An index can't be followed.
    Scope(ScopeFault),
    /// Items that can't be read may be imports or exports.
    Unread,
    /// A world has no imports and exports of this kind.
    Kind,
    /// The exports of an instance aren't known.
    Instance,
    /// An interface has no exports of this kind.
    ExportKind,
    /// WIT has no such name.
    Name,
    /// The name is there already: names differ by more than capital letters.
    Taken,
    /// It has the name of an interface that it implements.
    Implements,
    /// It has an external name.
    ExternalId,
    /// A function has no type.
    Untyped,
    /// The type of a function isn't a function's.
    NotFunction,
    /// A type is of another kind.
    TypeKind,
    /// A type that needs a name has none where it is used.
    Unnamed,
    /// A type has no members.
    Empty,
    /// A type without a name is nested more than 100 deep or longer than 65,536 bytes.
    Large,
    /// More than 32 flags.
    Flags,
    /// A map has no keys of this type.
    Key,
    /// A stream has no elements of this type.
    Element,
    /// A function returns a handle that is borrowed.
    Borrowed,
    /// A function has the name of a resource that isn't there.
    Orphan,
    /// A method's first parameter isn't `self`, a handle to its resource that is borrowed.
    Receiver,
    /// A constructor returns another type than its resource or a `result` of it.
    Constructor,
    /// A constructor is asynchronous.
    AsyncConstructor,
    /// A function of a resource is of another kind.
    FunctionKind,
    /// A resource is of an interface without a name, or of a world.
    Nameless,
    /// A resource is imported, and exported under the name of an interface of its own.
    Reexported,
    /// A type is of an interface that can't be used here: it depends on this one or on an interface
    /// that is exported, or it is another instance of an interface that is exported.
    Dependency,
    /// An interface is imported and exported, and this isn't the same in both.
    Differs,
    /// The rest of a text that would be longer than the limit.
    Limit,
}

impl Why {
    const fn words(self) -> &'static str {
        match self {
            Self::Scope(_) => "an index that can't be followed",
            Self::Unread => "items that can't be read",
            Self::Kind => "an import or export of another kind",
            Self::Instance => "an instance of another kind",
            Self::ExportKind => "an export of another kind",
            Self::Name => "a name that isn't one of WIT",
            Self::Taken => "a name that is there already",
            Self::Implements => "the name of an interface that is implemented",
            Self::ExternalId => "the external name of an item",
            Self::Untyped => "a function without a type",
            Self::NotFunction => "a type that isn't a function's",
            Self::TypeKind => "a type of another kind",
            Self::Unnamed => "a type without a name",
            Self::Empty => "a type without members",
            Self::Large => "a type that is too large",
            Self::Flags => "more than 32 flags",
            Self::Key => "a map with keys of another type",
            Self::Element => "a stream with elements of another type",
            Self::Borrowed => "a function that returns a borrowed handle",
            Self::Orphan => "a function of no resource here",
            Self::Receiver => "a method without its resource",
            Self::Constructor => "a constructor of another type",
            Self::AsyncConstructor => "an asynchronous constructor",
            Self::FunctionKind => "a function of another kind",
            Self::Nameless => "a resource of an interface without a name",
            Self::Reexported => "a resource that is imported and exported under one name",
            Self::Dependency => "a type of an interface that can't be used here",
            Self::Differs => "an item that differs between import and export",
            Self::Limit => "the rest of a text that is too long",
        }
    }
}

impl fmt::Display for Note {
    fn fmt(&self, f: &mut fmt::Formatter<'_>) -> fmt::Result {
        match self.why {
            Why::Scope(fault) => write!(f, "no WIT: {fault}"),
            why => write!(f, "no WIT: {} at {:#x}", why.words(), self.place),
        }
    }
}

/// Why a text ends early.
///
/// Needs the feature `wit`.
#[derive(Clone, Copy, Debug, PartialEq, Eq)]
#[non_exhaustive]
pub enum WitError {
    /// The text can't be written to where it goes.
    Write,
    /// An allocation failed.
    NoMemory,
}

impl fmt::Display for WitError {
    fn fmt(&self, f: &mut fmt::Formatter<'_>) -> fmt::Result {
        f.write_str(match self {
            Self::Write => "the text can't be written",
            Self::NoMemory => "no memory",
        })
    }
}

impl core::error::Error for WitError {}

/// Why a part isn't written, or nothing after it.
pub(super) enum Stop {
    Note(Note),
    /// There is no room for more, at this byte offset.
    Limit(usize),
    /// A write failed.
    Write,
    NoMemory,
}

impl From<ScopeFault> for Stop {
    fn from(fault: ScopeFault) -> Self {
        match fault {
            ScopeFault::NoMemory { .. } => Self::NoMemory,
            _ => Self::Note(Note { place: fault.place(), why: Why::Scope(fault) }),
        }
    }
}

impl From<AllocError> for Stop {
    fn from(_: AllocError) -> Self {
        Self::NoMemory
    }
}

impl<T> From<AllocFailed<T>> for Stop {
    fn from(_: AllocFailed<T>) -> Self {
        Self::NoMemory
    }
}

/// Returns what was followed, if it can be.
pub(super) fn known<T>(followed: Result<T, ScopeFault>) -> Result<Option<T>, Stop> {
    match followed {
        Ok(of) => Ok(Some(of)),
        Err(ScopeFault::NoMemory { .. }) => Err(Stop::NoMemory),
        Err(_) => Ok(None),
    }
}

/// Returns the error of a part at this byte offset.
pub(super) fn note<T>(place: usize, why: Why) -> Result<T, Stop> {
    Err(Stop::Note(Note { place, why }))
}
