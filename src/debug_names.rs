//! The debug names of a component.

use crate::error::or_panic;
use crate::proved::wenc_sections::names::NAMES_LABEL;
use crate::proved::wenc_view::text_of;
use crate::shim::alloc::{AllocError, Global};
use crate::shim::string::StringUsing;
use crate::tree::Space;
use crate::twins::twins;
use crate::{
    ComponentNameSection, ComponentSectionId, Error, NameMap, RawSection, ReadError, SectionItem,
    Sections,
};
use alloc::string::String;
use by_index::ByIndex;
use core::iter::FusedIterator;

pub use reader::{DebugName, NamesReader};

mod by_index;
mod reader;

/// The debug names of a component and of its items ([component model, binary format, "Name
/// Section"][names]), which the custom section `component-name` contains. If that names something
/// twice, the first name is kept.
///
/// Needs the feature `walk`.
///
/// [names]: https://github.com/WebAssembly/component-model/blob/main/design/mvp/Binary.md#name-section
///
/// [`of`](Self::of) returns the names of a component; `From` converts them to a
/// [`ComponentNameSection`].
///
/// ```
/// use wenc::tree::Space;
/// use wenc::{Component, ComponentNameSection, DebugNames};
///
/// let component = b"\0asm\x0d\0\x01\0\x07\x05\x01\x40\0\x01\0\x0a\x06\x01\0\x01f\x01\0\
///     \0\x1a\x0ecomponent-name\0\x02\x01c\x01\x05\x01\x01\0\x01g";
/// let mut names = DebugNames::of(component);
/// assert_eq!(names.component(), Some("c"));
/// assert_eq!(names.get(Space::Funcs, 0), Some("g"));
/// assert_eq!(names.get(Space::Types, 0), None);
///
/// names.insert(Space::Types, 0, "nothing");
/// let mut component = Component::new();
/// component.section(&ComponentNameSection::from(&names));
/// assert_eq!(
///     component.as_slice()[8..],
///     *b"\0\x27\x0ecomponent-name\0\x02\x01c\x01\x05\x01\x01\0\x01g\x01\x0b\x03\x01\0\x07nothing",
/// );
/// ```
#[derive(Clone, Debug, PartialEq, Eq)]
pub struct DebugNames {
    component: Option<String>,
    /// The names of items, by the number of their space.
    items: [ByIndex; 13],
}

impl DebugNames {
    /// The name of the custom section that contains debug names.
    pub const SECTION: &str = NAMES_LABEL;

    /// Creates an empty set of debug names.
    pub fn new() -> Self {
        Self { component: None, items: [const { ByIndex::new() }; 13] }
    }

    /// Returns the debug names of a component and of its items. Names that can't be read are left
    /// out, since a malformed custom section doesn't make a component invalid;
    /// [`read`](Self::read) returns the error. Sections other than custom ones are skipped by their
    /// sizes. Bytes that aren't a component have no names.
    ///
    /// # Panics
    ///
    /// Panics if [`try_of`](Self::try_of) fails.
    pub fn of(bytes: &[u8]) -> Self {
        or_panic(Self::try_of(bytes))
    }

    /// Does what [`of`](Self::of) does.
    ///
    /// # Errors
    ///
    /// Fails with [`NoMemory`](Error::NoMemory) if an allocation fails.
    pub fn try_of(bytes: &[u8]) -> Result<Self, Error> {
        let (mut names, mut sections) = (Self::new(), Sections::new(bytes).ok());
        while let Some((_, RawSection { id, data })) =
            sections.as_mut().and_then(Sections::next_raw)
        {
            if id == ComponentSectionId::CoreCustom.into() {
                unless_bad(names.read_section(data))?;
            }
        }
        Ok(names)
    }

    /// Adds the names of a custom section with this content, if it is a section of debug names.
    fn read_section(&mut self, content: &[u8]) -> Result<(), ReadError> {
        match text_of(content) {
            Ok((NAMES_LABEL, data)) => self.read_data(data),
            _ => Ok(()),
        }
    }

    /// Adds the names that the item contains if it is a custom section `component-name`; otherwise
    /// does nothing.
    ///
    /// # Errors
    ///
    /// The error of the first subsection that can't be read, or
    /// [`NoMemory`](crate::Cause::NoMemory) if an allocation fails. The names before it are added.
    pub fn read(&mut self, item: &impl SectionItem) -> Result<(), ReadError> {
        match item.custom() {
            Some((NAMES_LABEL, data)) => self.read_data(data),
            _ => Ok(()),
        }
    }

    /// Adds the names of all subsections.
    fn read_data(&mut self, data: &[u8]) -> Result<(), ReadError> {
        NamesReader::new(data).try_for_each(|name| self.add(name?).map_err(|_| ReadError::memory()))
    }

    /// Adds a name to those that were read before it.
    fn add(&mut self, DebugName { item, name }: DebugName<'_>) -> Result<(), AllocError> {
        match item {
            Some((space, index)) => self.items[space.number()].add(index, name)?,
            None if self.component.is_none() => {
                self.component = Some(String::from_str(Global, name)?)
            }
            None => {}
        }
        Ok(())
    }

    /// Returns the name of the component itself.
    pub fn component(&self) -> Option<&str> {
        self.component.as_deref()
    }

    /// Returns the name of the item with this index in this space.
    pub fn get(&self, space: Space, index: u32) -> Option<&str> {
        self.items[space.number()].get(index)
    }

    /// Returns the names of the items with their spaces and indices, ordered by space, as in
    /// [`Space::ALL`], and then by index.
    pub fn iter(&self) -> impl FusedIterator<Item = (Space, u32, &str)> {
        Space::ALL
            .into_iter()
            .zip(&self.items)
            .flat_map(|(space, items)| items.iter().map(move |(index, name)| (space, index, name)))
    }

    /// Names the component itself.
    pub fn set_component(&mut self, name: impl Into<String>) {
        self.component = Some(name.into());
    }

    twins! {
        /// Names the item with this index in this space. An earlier name is replaced.
        fn insert | try_insert(
            &mut self,
            space: Space,
            index: u32,
            name: impl Into<String>,
        ) -> () {
            let items = &mut self.items[space.number()];
            items.replace(index, name.into()).map_err(|_| Error::NoMemory)
        }
    }
}

impl Default for DebugNames {
    fn default() -> Self {
        Self::new()
    }
}

/// Ignores names that can't be read, which are no fault of the component.
fn unless_bad(read: Result<(), ReadError>) -> Result<(), Error> {
    match read {
        Err(error) if error.is_memory() => Err(Error::NoMemory),
        _ => Ok(()),
    }
}

/// Makes a section of these names: that of the component first, then those of the items in the
/// order of [`Space::ALL`].
///
/// # Panics
///
/// Panics if an allocation fails or the section is larger than 4294967295 bytes.
impl From<&DebugNames> for ComponentNameSection {
    #[inline]
    fn from(names: &DebugNames) -> Self {
        let mut section = Self::new();
        if let Some(name) = names.component() {
            section.component(name);
        }
        for (space, items) in Space::ALL.into_iter().zip(&names.items) {
            if !items.is_empty() {
                let mut map = NameMap::new();
                items.iter().for_each(|(index, name)| map.append(index, name));
                section.names(space, &map);
            }
        }
        section
    }
}
