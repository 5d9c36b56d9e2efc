//! Methods and traits of std's `Box` for that of trees.

use super::Box;
use crate::Error;
use crate::error::or_panic;

impl<T> Box<T> {
    /// Moves a value to the heap.
    ///
    /// # Errors
    ///
    /// [`NoMemory`](Error::NoMemory), if the allocation fails.
    pub fn try_new(value: T) -> Result<Self, Error> {
        Self::new(super::Global, value).map_err(|_| Error::NoMemory)
    }
}

/// # Panics
///
/// Panics if the allocation fails, which [`Box::try_new`] returns as an error.
impl<T> From<T> for Box<T> {
    fn from(value: T) -> Self {
        or_panic(Self::try_new(value))
    }
}

impl<T> AsRef<T> for Box<T> {
    fn as_ref(&self) -> &T {
        self
    }
}
