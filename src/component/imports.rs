//! Imports: their names, what is imported, and their section.

use crate::collections::collections;
use crate::component::sections;
use crate::encode::encode;
use crate::proved::wasm_encoder as proved;
use crate::shim::borrow::CowStr;
use crate::twins::twins;
use alloc::borrow::Cow;
use alloc::string::String;

pub use proved::{ComponentTypeRef, TypeBounds};

/// The name of an import or an export, with its options (component model, binary format,
/// `importname'` and `exportname'`).
///
/// ```
/// use wenc::ComponentExternName;
///
/// let mut name = ComponentExternName::from("wall:clock/now@1");
/// name.version_suffix = Some(".2.3".into());
/// ```
#[derive(Clone, Debug, PartialEq, Eq, Hash)]
pub struct ComponentExternName<'a> {
    /// The name.
    pub name: Cow<'a, str>,
    /// The name of the interface that the item implements (`implements`).
    pub implements: Option<Cow<'a, str>>,
    /// The rest of the version, after the part in the name (`versionsuffix`).
    pub version_suffix: Option<Cow<'a, str>>,
    /// The name of the item elsewhere (`external-id`).
    pub external_id: Option<Cow<'a, str>>,
}

impl<'a> ComponentExternName<'a> {
    /// A name without options.
    #[inline]
    fn plain(name: Cow<'a, str>) -> Self {
        Self { name, implements: None, version_suffix: None, external_id: None }
    }

    /// Converts the name for the proved code, without allocating.
    #[inline]
    pub(crate) fn into_proved(self) -> proved::ComponentExternName<'a> {
        proved::ComponentExternName {
            name: self.name.into(),
            implements: self.implements.map(CowStr::from),
            version_suffix: self.version_suffix.map(CowStr::from),
            external_id: self.external_id.map(CowStr::from),
        }
    }

    /// Borrows the name for the proved code, without allocating.
    fn borrowed(&self) -> proved::ComponentExternName<'_> {
        fn option<'t>(text: &'t Option<Cow<'_, str>>) -> Option<CowStr<'t>> {
            text.as_deref().map(CowStr::Borrowed)
        }
        proved::ComponentExternName {
            name: CowStr::Borrowed(&self.name),
            implements: option(&self.implements),
            version_suffix: option(&self.version_suffix),
            external_id: option(&self.external_id),
        }
    }
}

impl<'a> From<&'a str> for ComponentExternName<'a> {
    #[inline]
    fn from(name: &'a str) -> Self {
        Self::plain(Cow::Borrowed(name))
    }
}

impl<'a> From<&'a String> for ComponentExternName<'a> {
    #[inline]
    fn from(name: &'a String) -> Self {
        Self::plain(Cow::Borrowed(name))
    }
}

impl<'a> From<Cow<'a, str>> for ComponentExternName<'a> {
    #[inline]
    fn from(name: Cow<'a, str>) -> Self {
        Self::plain(name)
    }
}

impl From<String> for ComponentExternName<'_> {
    #[inline]
    fn from(name: String) -> Self {
        Self::plain(Cow::Owned(name))
    }
}

encode! {
    ComponentExternName<'_>, name => name.borrowed();
    ComponentTypeRef, ty => *ty;
    TypeBounds, bounds => *bounds;
}

collections! {
    /// The section of imports ([component model, binary format, "Import and Export
    /// Definitions"][imports]).
    ///
    /// [imports]: https://github.com/WebAssembly/component-model/blob/main/design/mvp/Binary.md#import-and-export-definitions
    ///
    /// ```
    /// use wenc::{Component, ComponentImportSection, ComponentTypeRef, TypeBounds};
    ///
    /// let mut imports = ComponentImportSection::new();
    /// imports.import("file", ComponentTypeRef::Type(TypeBounds::SubResource));
    ///
    /// let mut component = Component::new();
    /// component.section(&imports);
    /// assert_eq!(component.as_slice()[8..], *b"\x0a\x09\x01\0\x04file\x03\x01");
    /// ```
    ComponentImportSection;
}

sections! { ComponentImportSection }

impl ComponentImportSection {
    twins! {
        /// Adds an import by its name and type.
        fn import | try_import<'a>(
            &mut self,
            name: impl Into<ComponentExternName<'a>>,
            ty: ComponentTypeRef,
        ) -> &mut Self as (name.into().into_proved(), ty);
    }
}
