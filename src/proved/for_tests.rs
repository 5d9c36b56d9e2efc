//! The part of Rattle's standard library that only the proved callers use, which the tests run.

use crate::proved::wenc_parts::ComponentSectionId;
use crate::shim::alloc::{AllocError, Global};
use crate::shim::cmp::{Ord, Ordering};
use crate::shim::vec::{Vec, VecUsing};

/// Rattle's call that makes a vector of an array.
pub trait FromArray<T>: Sized {
    /// Creates a vector of these elements.
    fn from_array<const N: usize>(alloc: Global, values: [T; N]) -> Result<Self, AllocError>;
}

impl<T: Copy> FromArray<T> for Vec<T> {
    fn from_array<const N: usize>(alloc: Global, values: [T; N]) -> Result<Self, AllocError> {
        Vec::from_slice(alloc, &values)
    }
}

impl Ord for ComponentSectionId {
    fn cmp(&self, other: &Self) -> Ordering {
        core::cmp::Ord::cmp(self, other)
    }
}
