//! Iterators.

use super::alloc::{AllocError, Global};
use super::vec::{Vec, VecUsing};

/// Rattle's `Iterator`, which doesn't say how many members there are.
pub trait Members {
    /// A member.
    type Item;

    /// Returns the next member.
    fn next(&mut self) -> Option<Self::Item>;
}

/// Rattle's `collect`, under another name, since Rust's iterators already have a `collect`.
pub trait CollectUsing: Iterator {
    /// Collects the items in their order.
    #[inline]
    fn collect_using(self, alloc: Global) -> Result<Vec<Self::Item>, AllocError>
    where
        Self: Sized,
    {
        let mut all = Vec::with_capacity_using(alloc, self.size_hint().0)?;
        for one in self {
            all.push_using(one)?;
        }
        Ok(all)
    }
}

impl<I: Iterator> CollectUsing for I {}
