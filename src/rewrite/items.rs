//! Writing sections item by item.

use super::SectionItem;
use super::item::Item;
use crate::component::{ComponentSection, ComponentSectionId};
use crate::encode::{Encode, append, encode_or_panic};
use crate::error::{Error, or_panic};
use crate::list::ListedSection;
use crate::proved::wenc_base::{Encode as _, Fault, Holder, Verbatim};
use crate::shim::alloc::Global;
use crate::tree::ItemTree;
use alloc::vec::Vec;
use core::fmt;

/// Encodes each item in its shortest form, as an [`ItemSection`] does.
///
/// # Errors
///
/// Fails if an item belongs to another section, or if a section without a count doesn't have
/// exactly one item.
impl Encode for ListedSection {
    fn try_encode(&self, sink: &mut Vec<u8>) -> Result<(), Error> {
        let mut section = ItemSection::new(self.id);
        for item in &self.items {
            section.item(item)?;
        }
        section.try_encode(sink)
    }

    encode_or_panic! {}
}

impl ComponentSection for ListedSection {
    fn id(&self) -> u8 {
        self.id
    }
}

/// A section that is built item by item ([component model, binary format, "Component
/// Definitions"][definitions]). An item is added as a tree or a view, which is encoded, or as its
/// bytes in a component, which are copied, so that padded numbers stay padded.
///
/// Needs the feature `tree`.
///
/// The size and the count are encoded with the section. A section without a count (a core module, a
/// component, a start or a custom section) has exactly one item: adding a second one fails with
/// [`TooMany`](Error::TooMany), and encoding the section without one panics.
///
/// [definitions]: https://github.com/WebAssembly/component-model/blob/main/design/mvp/Binary.md#component-definitions
///
/// ```
/// use wenc::tree::ItemTree;
/// use wenc::view::ItemView;
/// use wenc::{Component, ItemSection, Sections};
///
/// // The component imports a resource `a`, and a `b` that is equal to it, whose index is padded.
/// let bytes = b"\0asm\x0d\0\x01\0\x0a\x0d\x02\0\x01a\x03\x01\0\x01b\x03\0\x80\0";
/// let section = Sections::new(bytes)?.next().expect("a section")?;
/// let mut imports = ItemSection::new(section.id());
/// for item in section.items() {
///     let item = item?;
///     match item.view {
///         ItemView::Import { name, ty } if name.name == "a" => {
///             imports.item(&ItemTree::Import { name: "file".into(), ty })?
///         }
///         _ => imports.raw(&bytes[item.range])?,
///     };
/// }
///
/// let mut component = Component::new();
/// component.section(&imports);
/// assert_eq!(
///     component.finish(),
///     b"\0asm\x0d\0\x01\0\x0a\x10\x02\0\x04file\x03\x01\0\x01b\x03\0\x80\0",
/// );
/// # Ok::<(), Box<dyn std::error::Error>>(())
/// ```
pub struct ItemSection {
    id: u8,
    /// The items. In a section without a count, the item is preceded by its size.
    items: Holder,
}

impl ItemSection {
    /// Creates a section without items. The id, from 0 to 11, is that of a
    /// [`SectionReader`](crate::SectionReader) or a [`ComponentSectionId`]. Doesn't allocate.
    pub fn new(id: impl Into<u8>) -> Self {
        Self { id: id.into(), items: Holder::new(Global) }
    }

    /// Returns the number of items.
    pub fn len(&self) -> u32 {
        self.items.len()
    }

    /// Returns `true` if the section has no items.
    pub fn is_empty(&self) -> bool {
        self.len() == 0
    }

    /// Adds an item, encoded in its shortest form.
    ///
    /// # Errors
    ///
    /// [`WrongSection`](Error::WrongSection) if the item belongs to a section with another id;
    /// [`TooMany`](Error::TooMany), [`TooLarge`](Error::TooLarge) or
    /// [`NoMemory`](Error::NoMemory). The section is unchanged.
    pub fn item(&mut self, item: &impl SectionItem) -> Result<&mut Self, Error> {
        item.with_tree(|item| self.tree(item))?;
        Ok(self)
    }

    /// Adds an item that is a tree.
    fn tree(&mut self, item: &ItemTree) -> Result<(), Error> {
        if u8::from(section_id(item)) != self.id {
            return Err(Error::WrongSection);
        }
        self.has_room()?;
        Ok(self.items.add_encoded(&Item(item))?)
    }

    /// Adds an item given as bytes, such as those of a component in the range that
    /// [`Items`](crate::Items) returns. The bytes aren't checked.
    ///
    /// # Errors
    ///
    /// [`TooMany`](Error::TooMany), [`TooLarge`](Error::TooLarge) or
    /// [`NoMemory`](Error::NoMemory), with the section unchanged.
    pub fn raw(&mut self, bytes: &[u8]) -> Result<&mut Self, Error> {
        self.has_room()?;
        if self.is_one_item() { self.items.add_encoded(&bytes) } else { self.items.add(bytes) }?;
        Ok(self)
    }

    /// Whether the section has one item and no count.
    fn is_one_item(&self) -> bool {
        use ComponentSectionId::{Component, CoreCustom, CoreModule, Start};
        [CoreCustom, CoreModule, Component, Start].map(u8::from).contains(&self.id)
    }

    /// Fails for a second item of a section without a count.
    fn has_room(&self) -> Result<(), Error> {
        if self.is_one_item() && !self.is_empty() { Err(Error::TooMany) } else { Ok(()) }
    }

    /// Appends the bytes after the id.
    fn append(&self, sink: &mut Vec<u8>) -> Result<(), Fault> {
        if !self.is_one_item() {
            return self.items.encode_section(sink);
        }
        if self.is_empty() {
            return Err(Fault::Unfinished);
        }
        Verbatim(self.items.as_slice()).encode(sink)
    }
}

impl Encode for ItemSection {
    fn try_encode(&self, sink: &mut Vec<u8>) -> Result<(), Error> {
        Ok(append(sink, |sink| self.append(sink))?)
    }

    encode_or_panic! {}
}

impl ComponentSection for ItemSection {
    fn id(&self) -> u8 {
        self.id
    }
}

impl Clone for ItemSection {
    #[inline]
    fn clone(&self) -> Self {
        Self { id: self.id, items: or_panic(self.items.try_clone()) }
    }
}

impl PartialEq for ItemSection {
    #[inline]
    fn eq(&self, other: &Self) -> bool {
        let [one, two] = [self, other].map(|of| (of.id, of.len(), of.items.as_slice()));
        one == two
    }
}

impl Eq for ItemSection {}

impl fmt::Debug for ItemSection {
    #[inline]
    fn fmt(&self, f: &mut fmt::Formatter<'_>) -> fmt::Result {
        let mut printed = f.debug_struct("ItemSection");
        printed.field("id", &self.id).field("len", &self.len());
        printed.field("items", &self.items.as_slice()).finish()
    }
}

/// Returns the id of the section to which this item belongs.
fn section_id(item: &ItemTree) -> ComponentSectionId {
    match item {
        ItemTree::Module(_) => ComponentSectionId::CoreModule,
        ItemTree::CoreInstance(_) => ComponentSectionId::CoreInstance,
        ItemTree::CoreType(_) => ComponentSectionId::CoreType,
        ItemTree::Component(_) => ComponentSectionId::Component,
        ItemTree::Instance(_) => ComponentSectionId::Instance,
        ItemTree::Alias(_) => ComponentSectionId::Alias,
        ItemTree::Type(_) => ComponentSectionId::Type,
        ItemTree::Canon(_) => ComponentSectionId::CanonicalFunction,
        ItemTree::Start { .. } => ComponentSectionId::Start,
        ItemTree::Import { .. } => ComponentSectionId::Import,
        ItemTree::Export { .. } => ComponentSectionId::Export,
        ItemTree::Custom { .. } => ComponentSectionId::CoreCustom,
    }
}
