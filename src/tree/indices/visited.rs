//! The indices that an owned item contains, which may be changed.

use crate::Error;
use crate::error::or_panic;
use crate::tree::fields::{Place, each_index};
use crate::tree::{ItemTree, Scope, Space};

/// An index that an item contains, as [`ItemTree::indices_mut`] visits it.
#[derive(Debug)]
pub struct IndexUse<'a> {
    /// The index space that the index is in.
    pub space: Space,
    /// The scope that the index space belongs to.
    pub scope: Scope,
    /// The index itself.
    pub index: &'a mut u32,
}

impl ItemTree {
    /// Visits each index that the item contains, in the order in which they are encoded. `visit`
    /// may change it.
    ///
    /// The indices that the item defines aren't visited, since they follow from the items before
    /// it: [`defined_indices`](Self::defined_indices) returns their number. A visited index may be
    /// one of them: core types of a recursion group refer to each other.
    ///
    /// Indices within bytes aren't visited: outer aliases in a nested component, which
    /// [`outer_indices_mut`](Self::outer_indices_mut) visits, and debug names in a custom section,
    /// which [`DebugNames`](crate::DebugNames) reads. The slots of `context.get` and `context.set`
    /// aren't in an index space.
    ///
    /// ```
    /// use wenc::list;
    /// use wenc::tree::{Command, Scope, Space, TypeTree, build};
    ///
    /// // an import of a function of type 0, which is exported
    /// let component = b"\0asm\x0d\0\x01\0\x07\x05\x01\x40\0\x01\0\x0a\x06\x01\0\x01f\x01\0\
    ///     \x0b\x07\x01\0\x01g\x01\0\0";
    ///
    /// // the same after another type
    /// let ty = TypeTree::Func { is_async: true, params: vec![], result: None };
    /// let mut commands = vec![Command::Type { debug_name: None, ty }];
    /// for mut item in list(component)?.sections.into_iter().flat_map(|of| of.items) {
    ///     item.indices_mut(|used| {
    ///         if (used.scope, used.space) == (Scope::Component(0), Space::Types) {
    ///             *used.index += 1;
    ///         }
    ///     });
    ///     commands.push(item.into());
    /// }
    /// assert_eq!(
    ///     build(&commands)?.bytes,
    ///     b"\0asm\x0d\0\x01\0\x07\x09\x02\x43\0\x01\0\x40\0\x01\0\x0a\x06\x01\0\x01f\x01\x01\
    ///       \x0b\x07\x01\0\x01g\x01\0\0",
    /// );
    /// # Ok::<(), Box<dyn std::error::Error>>(())
    /// ```
    ///
    /// # Panics
    ///
    /// Panics if [`try_indices_mut`](Self::try_indices_mut) fails.
    pub fn indices_mut(&mut self, visit: impl FnMut(IndexUse<'_>)) {
        or_panic(self.try_indices_mut(visit));
    }

    /// Does what [`indices_mut`](Self::indices_mut) does, but returns an error instead of
    /// panicking.
    ///
    /// # Errors
    ///
    /// [`NoMemory`](Error::NoMemory) if the parameters and results of a core function type can't be
    /// copied, which is needed if one of them refers to a type. `visit` is then called with all
    /// indices but theirs.
    pub fn try_indices_mut(&mut self, mut visit: impl FnMut(IndexUse<'_>)) -> Result<(), Error> {
        let mut visitor = Visitor { visit: &mut visit, is_refused: false };
        each_index(self, Place::default(), &mut visitor);
        if visitor.is_refused { Err(Error::NoMemory) } else { Ok(()) }
    }
}

/// The function to call with each index.
pub(in crate::tree) struct Visitor<'a> {
    pub(in crate::tree) visit: &'a mut dyn FnMut(IndexUse<'_>),
    /// Whether an allocation failed.
    pub(in crate::tree) is_refused: bool,
}
