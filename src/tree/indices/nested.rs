//! The indices in nested components that refer to the components around them.

use super::{IndexUse, Scope};
use crate::shim::vec::VecUsing;
use crate::tree::ItemTree;
use crate::view::ItemView;
use crate::{ComponentBuilder, Error, ReadError, Step, Walk};
use alloc::vec::Vec;
use core::mem;

/// The maximum depth of nested components: each is copied into the one around it.
const DEPTH: usize = 100;

impl ItemTree {
    /// Visits each index in a nested component that refers to a component around it: those of its
    /// outer aliases, and of the outer aliases in its types and in the components nested in it, up
    /// to `limit` deep, and at most 100. `visit` may change the index. Other items have none.
    ///
    /// Scopes are relative to this item, as in [`indices_mut`](Self::indices_mut):
    /// [`Scope::Component`] 0 is the component that contains this one.
    ///
    /// A nested component in which an index was changed is encoded again; any other keeps its
    /// bytes.
    ///
    /// # Errors
    ///
    /// The error of the first part of a component that can't be read, or
    /// [`Cause::Unwritten`](crate::Cause::Unwritten) if it can't be encoded again. The item is then
    /// unchanged, but `visit` may have been called.
    ///
    /// ```
    /// use wenc::list;
    /// use wenc::tree::{Command, Scope, Space, build};
    ///
    /// // two types, and a component with an outer alias of the first, the type of its import
    /// let component = b"\0asm\x0d\0\x01\0\x07\x09\x02\x40\0\x01\0\x43\0\x01\0\
    ///     \x04\x17\0asm\x0d\0\x01\0\x06\x05\x01\x03\x02\x01\0\x0a\x06\x01\0\x01f\x01\0";
    ///
    /// // the same with an outer alias of the second
    /// let sections = list(component)?.sections.into_iter();
    /// let mut items: Vec<_> = sections.flat_map(|of| of.items).collect();
    /// items[2].outer_indices_mut(0, |used| {
    ///     assert_eq!((used.space, used.scope), (Space::Types, Scope::Component(0)));
    ///     *used.index += 1;
    /// })?;
    /// let commands: Vec<Command> = items.into_iter().map(Command::from).collect();
    /// assert_eq!(
    ///     build(&commands)?.bytes,
    ///     b"\0asm\x0d\0\x01\0\x07\x09\x02\x40\0\x01\0\x43\0\x01\0\
    ///       \x04\x17\0asm\x0d\0\x01\0\x06\x05\x01\x03\x02\x01\x01\x0a\x06\x01\0\x01f\x01\0",
    /// );
    /// # Ok::<(), Box<dyn std::error::Error>>(())
    /// ```
    pub fn outer_indices_mut(
        &mut self,
        limit: usize,
        mut visit: impl FnMut(IndexUse<'_>),
    ) -> Result<(), ReadError> {
        if let Self::Component(bytes) = self {
            if let Some(changed) = visit_outer(bytes, limit.min(DEPTH), &mut visit)? {
                *bytes = changed;
            }
        }
        Ok(())
    }
}

/// Visits the indices in a component that refer to the components around it. Returns the bytes of
/// the component if an index was changed.
fn visit_outer(
    bytes: &[u8],
    limit: usize,
    visit: &mut dyn FnMut(IndexUse<'_>),
) -> Result<Option<Vec<u8>>, ReadError> {
    let mut innermost = Visited::new(bytes, 1);
    // the components around it
    let mut around = Vec::new();
    for step in Walk::new(bytes, limit)? {
        match step {
            Step::Item(item) => innermost.visit(&item.view, visit)?,
            Step::Enter(item) => {
                let nested = Visited::new(&bytes[item.range], innermost.depth + 1);
                let outer = mem::replace(&mut innermost, nested);
                around.push_using(outer).map_err(|_| ReadError::memory())?;
            }
            Step::Leave => {
                let Some(outer) = around.pop() else { continue };
                let Visited { bytes, .. } = innermost;
                let changed = mem::replace(&mut innermost, outer).finish()?;
                innermost.is_changed |= changed.is_some();
                innermost.add(|builder| {
                    builder.try_component_raw(None, changed.as_deref().unwrap_or(bytes)).map(drop)
                });
            }
            Step::Unread(unread) => return Err(unread.error),
            Step::Section(_) => {}
        }
    }
    Ok(innermost.finish()?)
}

/// A component whose indices are being visited.
struct Visited<'a> {
    bytes: &'a [u8],
    /// The distance to the component that has the item: 1, or more for a nested one.
    depth: u32,
    /// The component with the items visited so far, or why it can't be encoded.
    again: Result<ComponentBuilder, Error>,
    is_changed: bool,
}

impl<'a> Visited<'a> {
    fn new(bytes: &'a [u8], depth: u32) -> Self {
        Self { bytes, depth, again: ComponentBuilder::try_new(), is_changed: false }
    }

    /// Visits the indices of an item that refer to what is around the item with the component, and
    /// adds it.
    fn visit(
        &mut self,
        item: &ItemView<'_>,
        visit: &mut dyn FnMut(IndexUse<'_>),
    ) -> Result<(), Error> {
        let mut item = item.try_to_tree()?;
        item.try_indices_mut(|IndexUse { space, scope, index }| {
            let Scope::Component(out) = scope else { return };
            let Some(out) = out.checked_sub(self.depth) else { return };
            let before = *index;
            visit(IndexUse { space, scope: Scope::Component(out), index });
            self.is_changed |= *index != before;
        })?;
        self.add(|builder| builder.try_item(None, &item).map(drop));
        Ok(())
    }

    /// Adds an item to the component, unless adding an earlier one failed.
    fn add(&mut self, add: impl FnOnce(&mut ComponentBuilder) -> Result<(), Error>) {
        if let Ok(builder) = &mut self.again {
            if let Err(error) = add(builder) {
                self.again = Err(error);
            }
        }
    }

    /// Returns the bytes of the component, if an index in it was changed.
    fn finish(self) -> Result<Option<Vec<u8>>, Error> {
        if self.is_changed { self.again?.try_finish().map(Some) } else { Ok(None) }
    }
}
