//! Borrowed values as owned ones.

use super::{
    CanonView, CaseView, CoreCompositeView, CoreInstanceView, CoreSubView, CoreTypeView,
    DefinedView, GroupView, InstanceView, ItemView, ModuleDeclView, NameView, TypeView,
};
use crate::Error;
use crate::proved::wenc_decode::TreeOf;
use crate::shim::alloc::Global;
use crate::tree::{
    CanonTree, CaseTree, CoreCompositeType, CoreInstanceTree, CoreSubType, CoreTypeTree,
    DefinedTree, GroupTree, InstanceTree, ItemTree, ModuleDecl, NameTree, TypeTree,
};
use crate::twins::twins;

/// Defines how a borrowed value is copied.
macro_rules! copied {
    ($($view:ident => $tree:ident,)+) => {$(
        impl $view<'_> {
            twins! {
                /// Returns an owned copy, which can be changed and written. It takes memory for
                /// all strings and lists in it.
                ///
                /// Needs the feature `tree`.
                fn to_tree | try_to_tree(&self) -> $tree {
                    copied(*self)
                }
            }
        }
    )+};
}

/// Copies a value, out of line: many calls lead here.
#[inline(never)]
fn copied<V, T: TreeOf<V>>(view: V) -> Result<T, Error> {
    T::tree_of(Global, view).map_err(|_| Error::NoMemory)
}

copied! {
    CanonView => CanonTree,
    CaseView => CaseTree,
    CoreCompositeView => CoreCompositeType,
    CoreInstanceView => CoreInstanceTree,
    CoreSubView => CoreSubType,
    CoreTypeView => CoreTypeTree,
    DefinedView => DefinedTree,
    GroupView => GroupTree,
    InstanceView => InstanceTree,
    ItemView => ItemTree,
    ModuleDeclView => ModuleDecl,
    NameView => NameTree,
    TypeView => TypeTree,
}
