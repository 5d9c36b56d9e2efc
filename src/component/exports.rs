//! Exports, their kinds and their section.

use crate::collections::collections;
use crate::component::sections;
use crate::encode::encode;
use crate::proved::wasm_encoder as proved;
use crate::twins::twins;
use crate::{ComponentExternName, ComponentTypeRef};

pub use proved::ComponentExportKind;

encode! {
    ComponentExportKind, kind => *kind;
}

collections! {
    /// The section of exports ([component model, binary format, "Import and Export
    /// Definitions"][exports]).
    ///
    /// [exports]: https://github.com/WebAssembly/component-model/blob/main/design/mvp/Binary.md#import-and-export-definitions
    ///
    /// ```
    /// use wenc::{Component, ComponentExportKind, ComponentExportSection, ComponentTypeSection};
    ///
    /// let mut types = ComponentTypeSection::new();
    /// types.defined_type().list(wenc::PrimitiveValType::U8);
    /// let mut exports = ComponentExportSection::new();
    /// exports.export("bytes", ComponentExportKind::Type, 0, None);
    ///
    /// let mut component = Component::new();
    /// component.section(&types).section(&exports);
    /// assert_eq!(
    ///     component.as_slice()[8..],
    ///     *b"\x07\x03\x01\x70\x7d\x0b\x0b\x01\0\x05bytes\x03\0\0",
    /// );
    /// ```
    ComponentExportSection;
}

sections! { ComponentExportSection }

impl ComponentExportSection {
    twins! {
        /// Adds an export of the item of this kind with this index, optionally ascribing a type.
        fn export | try_export<'a>(
            &mut self,
            name: impl Into<ComponentExternName<'a>>,
            kind: ComponentExportKind,
            index: u32,
            ty: Option<ComponentTypeRef>,
        ) -> &mut Self as (name.into().into_proved(), kind, index, ty);
    }
}
