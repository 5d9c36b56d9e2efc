//! Values on the heap.

use super::alloc::{AllocError, AllocFailed, Global, TryClone, ask};
use alloc::boxed::Box as Inner;
use alloc::vec::Vec;
use core::fmt;
use core::ops::{Deref, DerefMut};

/// std's `Box`, whose [`try_new`](Self::try_new) returns an error if the allocation fails.
#[derive(Clone, PartialEq, Eq, PartialOrd, Ord, Hash)]
pub struct Box<T> {
    /// An array of one element: it can be made from a vector, whose allocation can fail without
    /// aborting.
    inner: Inner<[T; 1]>,
}

impl<T> Box<T> {
    /// Moves a value to the heap. The allocation is exact, so that it needn't be shrunk, which
    /// could fail.
    pub(crate) fn new(_alloc: Global, value: T) -> Result<Self, AllocFailed<T>> {
        let mut one = Vec::new();
        if ask().is_err() || one.try_reserve_exact(1).is_err() {
            return Err(AllocFailed { value });
        }
        one.push(value);
        match one.into_boxed_slice().try_into() {
            Ok(inner) => Ok(Box { inner }),
            Err(_) => unreachable!("it has one element"),
        }
    }

    /// Returns the value without allocating.
    pub fn into_inner(self) -> T {
        let [value] = *self.inner;
        value
    }
}

/// Without it, a copy of a box would be one of its value.
impl<T: TryClone> TryClone for Box<T> {
    fn try_clone(&self) -> Result<Self, AllocError> {
        Ok(Box::new(Global, T::try_clone(self)?)?)
    }
}

impl<T> Deref for Box<T> {
    type Target = T;

    #[inline]
    fn deref(&self) -> &T {
        &self.inner[0]
    }
}

impl<T> DerefMut for Box<T> {
    #[inline]
    fn deref_mut(&mut self) -> &mut T {
        &mut self.inner[0]
    }
}

impl<T: fmt::Debug> fmt::Debug for Box<T> {
    fn fmt(&self, f: &mut fmt::Formatter<'_>) -> fmt::Result {
        self.inner[0].fmt(f)
    }
}
