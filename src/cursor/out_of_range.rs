//! The indices in a component that its index spaces don't have.

use super::{Step, Walk};
use crate::ReadError;
use crate::shim::vec::VecUsing;
use crate::tree::{Scope, Space, UsedIndex};
use alloc::vec::Vec;
use core::iter::{self, FusedIterator};

/// An index that its space doesn't have before the item that contains it, as
/// [`Walk::out_of_range`] finds it.
///
/// Needs the feature `walk`.
#[derive(Clone, Copy, Debug, PartialEq, Eq, Hash)]
pub struct OutOfRange {
    /// The byte offset of the item, from the start of the outermost component.
    pub place: usize,
    /// The index space that the index is in.
    pub space: Space,
    /// The scope that the index space belongs to, as seen from the item.
    pub scope: Scope,
    /// The index itself.
    pub index: u32,
    /// The number of indices in the space, up to this item or declaration; 0 if there is no such
    /// scope. It is at most the index.
    pub count: u64,
}

impl<'a> Walk<'a> {
    /// Returns the indices that are out of range: those that aren't less than the number of indices
    /// that their space has before the item, in the component or the type that the index belongs to
    /// (component model, explainer, "Index Spaces"). An outer alias out of the outermost component
    /// is out of range.
    ///
    /// Each comes with the byte offset of its item. A valid component has none; nothing else is
    /// checked. A recursion group defines an index for each of its types, to which they may refer.
    ///
    /// The iterator ends after an error: that of the first part that isn't read, or
    /// [`NoMemory`](crate::Cause::NoMemory), as it allocates for the indices of one item that are
    /// out of range.
    ///
    /// ```
    /// use wenc::tree::{Scope, Space};
    /// use wenc::{OutOfRange, ReadError, Walk};
    ///
    /// // the type of a function, and an import of a function of that type
    /// let mut component = *b"\0asm\x0d\0\x01\0\x07\x05\x01\x40\0\x01\0\x0a\x06\x01\0\x01f\x01\0";
    /// assert!(Walk::new(&component, 100)?.out_of_range().next().is_none());
    ///
    /// // the same with the index 99
    /// component[22] = 99;
    /// let found: Result<Vec<_>, _> = Walk::new(&component, 100)?.out_of_range().collect();
    /// let (space, scope) = (Space::Types, Scope::Component(0));
    /// assert_eq!(found?, [OutOfRange { place: 18, space, scope, index: 99, count: 1 }]);
    /// # Ok::<(), ReadError>(())
    /// ```
    pub fn out_of_range(self) -> impl FusedIterator<Item = Result<OutOfRange, ReadError>> + 'a {
        // those of the last item, the first of them last
        let mut found: Vec<OutOfRange> = Vec::new();
        let mut walk = self.counted().map_err(Some);
        iter::from_fn(move || {
            loop {
                if let Some(found) = found.pop() {
                    return Some(Ok(found));
                }
                let walk = match &mut walk {
                    Ok(walk) => walk,
                    Err(error) => return error.take().map(Err),
                };
                let read = match walk.next()? {
                    Step::Item(item) => {
                        let place = item.range.start;
                        item.view.node_in(&walk.scopes()).try_each_index(|used| {
                            let UsedIndex { space, scope, index, count } = used;
                            let Some(count) = count else { return Ok(()) };
                            let one = OutOfRange { place, space, scope, index, count };
                            found.push_using(one).map_err(|_| ReadError::memory())
                        })
                    }
                    Step::Unread(unread) => Err(unread.error),
                    _ => Ok(()),
                };
                if let Err(error) = read {
                    found.clear();
                    return Some(Err(walk.end(error)));
                }
                found.reverse();
            }
        })
        .fuse()
    }
}
