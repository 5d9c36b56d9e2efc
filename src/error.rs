//! Why a call failed.

use crate::proved::wenc_base::Fault;
use core::convert::Infallible;
use core::fmt;

/// Why a call failed. The receiver is unchanged, except that an encoder leaves its type unfinished.
///
/// ```
/// use wenc::{ComponentBuilder, ComponentTypeRef, Error};
///
/// let mut builder = ComponentBuilder::default();
/// // the encoder of a type is dropped before its last call
/// _ = builder.type_function(None);
/// assert_eq!(builder.try_import("f", ComponentTypeRef::Func(0)), Err(Error::Unfinished));
///
/// builder.discard_unfinished();
/// let (ty, mut function) = builder.type_function(None);
/// function.params([("n", wenc::PrimitiveValType::U8)]).result(None);
/// assert_eq!(builder.try_import("f", ComponentTypeRef::Func(ty)), Ok(0));
/// assert_eq!(
///     builder.finish(),
///     b"\0asm\x0d\0\x01\0\x07\x08\x01\x40\x01\x01n\x7d\x01\0\x0a\x06\x01\0\x01f\x01\0",
/// );
/// ```
#[derive(Clone, Copy, Debug, PartialEq, Eq, Hash)]
#[non_exhaustive]
pub enum Error {
    /// An allocation failed.
    NoMemory,
    /// A count, a list or an index space would exceed 4294967295.
    TooMany,
    /// A string, a section or a type would exceed 4294967295 bytes.
    TooLarge,
    /// A type of the receiver or of an argument was begun and not ended: its encoder was dropped
    /// before its last call, that call failed, or an iterator panicked. It counts as the last type;
    /// `discard_unfinished` discards it. Or a section without a count has no item.
    Unfinished,
    /// A core type has this part, which isn't in WebAssembly 3.0, and can't be encoded.
    Unsupported(Unsupported),
    /// An item belongs to a section with another id.
    WrongSection,
    /// A call of a [`ComponentFuncTypeEncoder`](crate::ComponentFuncTypeEncoder) came out of turn:
    /// [`async_`](crate::ComponentFuncTypeEncoder::async_) comes first or not at all,
    /// [`params`](crate::ComponentFuncTypeEncoder::params) once, then
    /// [`result`](crate::ComponentFuncTypeEncoder::result) once. No call is allowed after an
    /// iterator of parameters panicked.
    OutOfTurn,
}

impl fmt::Display for Error {
    fn fmt(&self, f: &mut fmt::Formatter<'_>) -> fmt::Result {
        f.write_str(match self {
            Self::Unsupported(part) => {
                f.write_str("not supported: ")?;
                return part.fmt(f);
            }
            Self::NoMemory => "no memory",
            Self::TooMany => "too many",
            Self::TooLarge => "too large",
            Self::Unfinished => {
                "unfinished: a type or an item was begun and never ended; call the last method of \
                 its encoder (of a function's type `result`), or `discard_unfinished`"
            }
            Self::WrongSection => "item of another section",
            Self::OutOfTurn => {
                "out of turn: a function's type is encoded by `async_` or not, `params` once, then \
                 `result` once"
            }
        })
    }
}

impl core::error::Error for Error {}

/// The parts of core types that aren't in WebAssembly 3.0, each with its words.
macro_rules! unsupported {
    ($($(#[$doc:meta])* $name:ident $words:literal;)*) => {
        /// A part of a core type that isn't in WebAssembly 3.0.
        ///
        /// ```
        /// use wenc::{EntityType, Error, GlobalType, ModuleType, Unsupported, ValType};
        ///
        /// let global = GlobalType { val_type: ValType::I32, mutable: true, shared: true };
        /// let error = ModuleType::new().try_export("g", EntityType::Global(global)).unwrap_err();
        /// assert_eq!(error, Error::Unsupported(Unsupported::SharedGlobal));
        /// assert_eq!(error.to_string(), "not supported: a shared global");
        /// ```
        #[derive(Clone, Copy, Debug, PartialEq, Eq, Hash)]
        #[non_exhaustive]
        pub enum Unsupported {
            $($(#[$doc])* $name,)*
        }

        impl fmt::Display for Unsupported {
            fn fmt(&self, f: &mut fmt::Formatter<'_>) -> fmt::Result {
                f.write_str(match self {
                    $(Self::$name => $words,)*
                })
            }
        }
    };
}

unsupported! {
    /// A composite type that threads share.
    SharedType "a shared composite type";
    /// An abstract heap type that threads share.
    SharedHeapType "a shared heap type";
    /// A table that threads share.
    SharedTable "a shared table";
    /// A global that threads share.
    SharedGlobal "a shared global";
    /// A reference to values of exactly one type.
    ExactReference "an exact reference";
    /// A function of exactly one type.
    ExactFunction "an exact function";
    /// A continuation type, or an abstract heap type of continuations.
    Continuation "a continuation";
    /// A descriptor of a composite type.
    Descriptor "a descriptor";
    /// A composite type that describes another.
    Describes "a type that describes another";
    /// The page size of a memory.
    PageSize "a page size";
}

impl From<Infallible> for Error {
    #[inline]
    fn from(never: Infallible) -> Self {
        match never {}
    }
}

impl From<Fault> for Error {
    #[inline]
    fn from(fault: Fault) -> Self {
        match fault {
            Fault::Memory(_) => Self::NoMemory,
            Fault::TooMany => Self::TooMany,
            Fault::TooLarge => Self::TooLarge,
            Fault::Unfinished => Self::Unfinished,
        }
    }
}

/// Returns the value. Panics on an error, as the calls with upstream's names do.
#[inline]
#[track_caller]
pub(crate) fn or_panic<T, E: Into<Error>>(result: Result<T, E>) -> T {
    match result {
        Ok(value) => value,
        Err(error) => refused(error.into()),
    }
}

#[cold]
#[inline(never)]
#[track_caller]
fn refused(error: Error) -> ! {
    panic!("{error}")
}
