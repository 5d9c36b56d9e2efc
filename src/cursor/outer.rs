//! The indices in a nested component that refer to the components around it.

use super::{Step, Walk};
use crate::ReadError;
use crate::tree::{Scope, UsedIndex};
use crate::view::ItemView;

impl ItemView<'_> {
    /// Visits each index in a nested component that refers to a component around it: those of its
    /// outer aliases, and of the outer aliases in its types and in the components nested in it, up
    /// to `limit` deep. Other items have none. Nothing is allocated to depth 8.
    ///
    /// Scopes are relative to this item, as in its [`node`](Self::node): [`Scope::Component`] 0 is
    /// the component that contains it.
    ///
    /// # Errors
    ///
    /// The first part of a component that can't be read, with its byte offset in the nested
    /// component.
    ///
    /// ```
    /// use wenc::tree::{Scope, Space};
    /// use wenc::{ReadError, Sections};
    ///
    /// // a type, and a component with an outer alias of it
    /// let component = b"\0asm\x0d\0\x01\0\x07\x02\x01\x79\
    ///     \x04\x0f\0asm\x0d\0\x01\0\x06\x05\x01\x03\x02\x01\0";
    /// let mut found = Vec::new();
    /// for item in Sections::new(component)?.items() {
    ///     item?.view.outer_indices(100, |used| found.push((used.space, used.scope, used.index)))?;
    /// }
    /// assert_eq!(found, [(Space::Types, Scope::Component(0), 0)]);
    /// # Ok::<(), ReadError>(())
    /// ```
    pub fn outer_indices(
        &self,
        limit: usize,
        mut visit: impl FnMut(UsedIndex),
    ) -> Result<(), ReadError> {
        let Self::Component(bytes) = self else { return Ok(()) };
        let mut walk = Walk::new(bytes, limit)?;
        while let Some(step) = walk.next() {
            match step {
                Step::Item(item) => item.view.node().each_index(|used| {
                    let Scope::Component(out) = used.scope else { return };
                    // the components from the item's own to this one
                    // 32 bits: the depth is below the number of bytes.
                    let within = u32::try_from(walk.depth() + 1).unwrap_or(u32::MAX);
                    if let Some(out) = out.checked_sub(within) {
                        visit(UsedIndex { scope: Scope::Component(out), ..used });
                    }
                }),
                Step::Unread(unread) => return Err(unread.error),
                _ => {}
            }
        }
        Ok(())
    }
}
