//! Values that borrow from the bytes of a component.
//!
//! Needs the feature `walk`.
//!
//! A type `..View<'a>` borrows its strings and its lists from the bytes that were read, and is
//! `Copy`. The type of the same name in [`tree`](crate::tree), mostly a `..Tree`, owns them, and
//! can be changed and written, as [`ItemView`] and [`ItemTree`](crate::tree::ItemTree),
//! [`ComponentDeclView`] and [`ComponentDecl`](crate::tree::ComponentDecl). What an
//! [`AliasTree`](crate::tree::AliasTree) owns, an [`Alias`](crate::Alias) borrows, as in upstream's
//! API. Types without strings and lists are the same in both.
//!
//! The iterators over items, [`Items`](crate::Items), return views. By then the whole item has been
//! read once and its errors found, but of each list only the number of members and the position of
//! the first are kept. A list is an iterator that reads its members on demand, so that nothing here
//! allocates. A member that is requested twice is read twice, and the declarations of a nested type
//! once more for each type around it.
//!
//! [`to_tree`](ItemView::to_tree) copies a value (feature `tree`); [`node`](ItemView::node) has its fields and its
//! indices, without a copy.
//!
//! Equality and hashes are those of the values: lists are equal if their members are, however
//! their numbers are padded.
//!
//! ```
//! use wenc::view::{ItemView, TypeView};
//! use wenc::{ReadError, PrimitiveValType, Sections};
//!
//! // the type of a function with a parameter
//! let component = b"\0asm\x0d\0\x01\0\x07\x08\x01\x40\x01\x01n\x79\x01\0";
//! let item = Sections::new(component)?.items().next().expect("an item")?;
//! let ItemView::Type(TypeView::Func { params, result: None, .. }) = item.view else {
//!     panic!("it is the type of a function")
//! };
//! assert_eq!((item.range, params.len()), (11..18, 1));
//! for (name, ty) in params {
//!     assert_eq!((name, ty), ("n", PrimitiveValType::U32.into()));
//! }
//! # Ok::<(), ReadError>(())
//! ```

use crate::ComponentExternName;
use alloc::borrow::Cow;

#[cfg(feature = "tree")]
mod copied;

pub use crate::core_items::CoreItemView;
pub use crate::proved::wenc_list::ItemView;
pub use crate::proved::wenc_view::composites::{
    CompositeView as CoreCompositeView, GroupView, SubView as CoreSubView,
};
pub use crate::proved::wenc_view::core_type_views::ModuleDeclView;
pub use crate::proved::wenc_view::{
    CanonView, CaseView, ComponentDeclView, ComponentDecls, CoreInstanceView, CoreTypeView,
    DefinedView, InstanceDeclView, InstanceDecls, InstanceView, ListOf, NameView, TypeView,
};

impl<'a> From<NameView<'a>> for ComponentExternName<'a> {
    #[inline]
    fn from(name: NameView<'a>) -> Self {
        let NameView { name, implements, version_suffix, external_id } = name;
        let [implements, version_suffix, external_id] =
            [implements, version_suffix, external_id].map(|option| option.map(Cow::Borrowed));
        Self { name: Cow::Borrowed(name), implements, version_suffix, external_id }
    }
}
