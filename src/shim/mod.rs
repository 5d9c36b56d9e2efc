//! The part of Rattle's standard library and of the kit's crate `hex` that the proved sources use,
//! built on Rust's. None of it is proved. Memory is allocated by `try_reserve`, so that a failed
//! allocation is an error, as in Rattle. Sources that use anything else don't compile.

pub mod alloc;
pub mod borrow;
#[cfg(any(feature = "walk", script, test))]
mod borrowed_lists;
#[cfg(any(feature = "tree", script, test))]
pub mod boxed;
pub mod convert;
#[cfg(any(script, test))]
pub mod hex;
pub mod iter;
mod macros;
pub mod string;
pub mod vec;

/// The names that are in scope by default in the proved sources, in place of Rust's: no other name
/// is in scope there that a source doesn't declare or import. So a trait that only Rust's types
/// have ([`NoTrait`]) has no method there.
#[allow(unused_imports, reason = "some are for parts that have a condition")]
pub mod prelude {
    #[cfg(not(any(script, test)))]
    pub(crate) use super::NoTrait as Ord;
    pub(crate) use super::alloc::TryClone as Clone;
    #[cfg(any(feature = "tree", script, test))]
    pub(crate) use super::boxed::Box;
    #[cfg(any(script, test))]
    pub(crate) use super::cmp::Ord;
    pub(crate) use super::derives::*;
    pub(crate) use super::iter::CollectUsing;
    pub(crate) use super::macros::format;
    #[cfg(test)]
    pub(crate) use super::macros::vec;
    pub(crate) use super::marker::Drop;
    #[cfg(any(script, test))]
    pub(crate) use super::process::HostRuntime;
    pub(crate) use super::str;
    pub(crate) use super::string::{String, StringUsing};
    pub(crate) use super::vec::{Vec, VecUsing};
    pub(crate) use super::{NoTrait as Debug, NoTrait as Hash};
    pub(crate) use super::{NoTrait as PartialEq, NoTrait as PartialOrd};
    #[cfg(all(test, not(script)))]
    pub(crate) use crate::proved::for_tests::FromArray;
    pub(crate) use crate::proved::*;
    pub(crate) use crate::shim::{self as std, thiserror};
    pub(crate) use core::convert::{From, Into, TryFrom};
    pub(crate) use core::iter::{IntoIterator, Iterator};
    pub(crate) use core::marker::{Copy, Sized};
    pub(crate) use core::mem::drop;
    pub(crate) use core::option::Option::{self, None, Some};
    pub(crate) use core::result::Result::{self, Err, Ok};
    pub(crate) use core::{concat, matches, unreachable, write, writeln};
}

mod derives {
    //! The derives, without the traits of their names.

    pub use core::clone::Clone;
    pub use core::cmp::{Eq, Ord, PartialEq, PartialOrd};
    pub use core::fmt::Debug;
    pub use core::hash::Hash;
}

/// The name of a trait that isn't in scope in the proved sources.
pub enum NoTrait {}

pub mod marker {
    //! Markers.

    pub use core::marker::PhantomData;

    /// A type's model in contracts, of which nothing is left here.
    pub trait Model {}

    /// Rattle's bound of what can be dropped, as all can in Rust.
    pub trait Drop {}

    impl<T: ?Sized> Drop for T {}
}

pub mod thiserror {
    //! The kit's crate, for the sources' imports: the eraser writes what it derives.

    pub use super::NoTrait as Error;
}

#[cfg(any(script, test))]
pub mod cmp {
    //! Comparison.

    pub use core::cmp::Ordering;

    /// Rattle's `Ord`, of what the sources compare by its methods: Rust's, which more types have
    /// than theirs, would have its methods for all of these.
    pub trait Ord: Sized {
        /// Compares the two.
        fn cmp(&self, other: &Self) -> Ordering;

        /// Returns the lesser one, of equal ones the first.
        fn min(self, other: Self) -> Self {
            if other.cmp(&self) == Ordering::Less { other } else { self }
        }
    }

    impl Ord for usize {
        fn cmp(&self, other: &Self) -> Ordering {
            core::cmp::Ord::cmp(self, other)
        }
    }
}

pub mod str {
    //! Borrowed strings.

    pub use core::str::{Utf8Error, from_utf8};
}

#[cfg(any(script, test))]
pub mod io {
    //! Streams, with the methods that the sources call: those of `std::io` have more, and are
    //! implemented for more types than Rattle's.

    use std::io::Result;

    /// What can be read.
    pub trait Read {
        /// Reads into the buffer, and returns how many bytes.
        fn read(&mut self, into: &mut [u8]) -> Result<usize>;
    }

    /// What can be written to.
    pub trait Write {
        /// Writes some of the bytes, and returns how many.
        fn write(&mut self, bytes: &[u8]) -> Result<usize>;

        /// Writes what is buffered.
        fn flush(&mut self) -> Result<()>;
    }

    impl<R: std::io::Read> Read for R {
        fn read(&mut self, into: &mut [u8]) -> Result<usize> {
            std::io::Read::read(self, into)
        }
    }

    impl<W: std::io::Write> Write for W {
        fn write(&mut self, bytes: &[u8]) -> Result<usize> {
            std::io::Write::write(self, bytes)
        }

        fn flush(&mut self) -> Result<()> {
            std::io::Write::flush(self)
        }
    }
}

#[cfg(any(script, test))]
pub mod process;

#[cfg(test)]
pub mod hash {
    //! Hashing, for contracts. The eraser adds Rust's `Hash` to types, so that one has no method
    //! here.

    /// What can be hashed.
    pub trait Hash {}

    impl<T: core::hash::Hash> Hash for T {}
}
