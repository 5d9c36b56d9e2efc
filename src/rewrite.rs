//! Writing sections that were read, byte for byte or item by item.

use crate::component::ComponentSection;
use crate::cursor::SectionReader;
use crate::encode::encode;
use crate::proved::wenc_base::Verbatim;
use crate::view::ItemView;
#[cfg(feature = "tree")]
use crate::{Error, tree::ItemTree};

#[cfg(feature = "tree")]
pub use items::ItemSection;

#[cfg(feature = "tree")]
mod item;
#[cfg(feature = "tree")]
mod items;

// The bytes after the id, which is one byte.
encode! {
    SectionReader<'_>, section => Verbatim(&section.bytes()[1..]);
}

/// Appends the section byte for byte as in its component.
impl ComponentSection for SectionReader<'_> {
    fn id(&self) -> u8 {
        self.id()
    }
}

/// An item, owned or borrowed: an [`ItemTree`](crate::tree::ItemTree) or an [`ItemView`]. No other
/// type implements this.
///
/// Needs the feature `walk`.
pub trait SectionItem: sealed::Sealed {}

#[cfg(feature = "tree")]
impl SectionItem for ItemTree {}
impl SectionItem for ItemView<'_> {}

pub(crate) mod sealed {
    use super::ItemView;
    #[cfg(feature = "tree")]
    use super::{Error, ItemTree};

    /// What is needed of an item.
    pub trait Sealed {
        /// Calls a function with the item as a tree.
        #[cfg(feature = "tree")]
        fn with_tree<T>(
            &self,
            call: impl FnOnce(&ItemTree) -> Result<T, Error>,
        ) -> Result<T, Error>;

        /// Returns the name and the data of a custom section.
        fn custom(&self) -> Option<(&str, &[u8])>;
    }

    #[cfg(feature = "tree")]
    impl Sealed for ItemTree {
        fn with_tree<T>(
            &self,
            call: impl FnOnce(&ItemTree) -> Result<T, Error>,
        ) -> Result<T, Error> {
            call(self)
        }

        fn custom(&self) -> Option<(&str, &[u8])> {
            match self {
                Self::Custom { name, data } => Some((name, data)),
                _ => None,
            }
        }
    }

    impl Sealed for ItemView<'_> {
        #[cfg(feature = "tree")]
        fn with_tree<T>(
            &self,
            call: impl FnOnce(&ItemTree) -> Result<T, Error>,
        ) -> Result<T, Error> {
            call(&self.try_to_tree()?)
        }

        fn custom(&self) -> Option<(&str, &[u8])> {
            match self {
                Self::Custom { name, data } => Some((name, data)),
                _ => None,
            }
        }
    }
}
