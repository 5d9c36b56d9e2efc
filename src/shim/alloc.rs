//! The allocator and allocation errors.

use alloc::collections::TryReserveError;
use core::fmt;

/// Rattle's bound of allocators, for the sources' imports: the eraser leaves out what is bound.
pub trait Allocator {}

/// The global allocator, the only one in Rust.
#[derive(Clone, Copy, Debug, PartialEq, Eq)]
pub struct Global;

/// The type of each allocator that the sources name. It is the name of no value or pattern: where
/// an allocator's name is one, the source doesn't compile.
pub type Handed = Global;

/// Returns an error if a test plans that the next allocation is refused.
#[inline]
pub(crate) fn ask() -> Result<(), AllocError> {
    #[cfg(all(test, has_tests))]
    if !crate::proved::tests::refusing::allows() {
        return Err(AllocError);
    }
    Ok(())
}

/// Creates a vector or a string with room for exactly this, which `reserve` reserves.
pub(super) fn with_room<V: Default>(
    room: usize,
    reserve: impl FnOnce(&mut V, usize) -> Result<(), TryReserveError>,
) -> Result<V, AllocError> {
    let mut made = V::default();
    if room > 0 {
        ask()?;
        reserve(&mut made, room)?;
    }
    Ok(made)
}

/// An allocation failed.
#[derive(Clone, Copy, Debug, PartialEq, Eq, Hash)]
pub struct AllocError;

impl fmt::Display for AllocError {
    fn fmt(&self, f: &mut fmt::Formatter<'_>) -> fmt::Result {
        f.write_str("memory allocation failed")
    }
}

impl core::error::Error for AllocError {}

/// An allocation failed, and this value couldn't be stored.
#[derive(Debug)]
pub struct AllocFailed<T> {
    /// The value.
    pub value: T,
}

impl<T> From<AllocFailed<T>> for AllocError {
    #[inline]
    fn from(_failed: AllocFailed<T>) -> AllocError {
        AllocError
    }
}

impl From<TryReserveError> for AllocError {
    #[inline]
    fn from(_error: TryReserveError) -> AllocError {
        AllocError
    }
}

/// Rattle's `Clone`, which can fail.
pub trait TryClone: Sized {
    /// Returns a copy of the value, or an error if an allocation fails.
    fn try_clone(&self) -> Result<Self, AllocError>;
}

impl TryClone for Global {
    #[inline]
    fn try_clone(&self) -> Result<Self, AllocError> {
        Ok(Global)
    }
}

impl<T: TryClone> TryClone for Option<T> {
    fn try_clone(&self) -> Result<Self, AllocError> {
        self.as_ref().map(TryClone::try_clone).transpose()
    }
}
