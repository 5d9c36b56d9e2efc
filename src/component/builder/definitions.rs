//! The builder's calls for imports, exports, aliases, modules, components, starts and custom
//! sections.

use crate::component::{
    Alias, ComponentBuilder, ComponentExportKind, ComponentExternName, ComponentTypeRef,
};
use crate::core::{CustomSection, ExportKind, Module, ProducersSection};
use crate::twins::twins;
use alloc::vec::Vec;

/// Imports, exports and aliases, core modules, nested components, starts and custom sections
/// ([component model, binary format][binary]).
///
/// [binary]: https://github.com/WebAssembly/component-model/blob/main/design/mvp/Binary.md
impl ComponentBuilder {
    twins! {
        /// Adds an import and returns its index in the space of its kind. The name is its debug
        /// name too.
        ///
        /// ```
        /// use wenc::{ComponentBuilder, ComponentTypeRef, TypeBounds};
        ///
        /// let mut builder = ComponentBuilder::default();
        /// assert_eq!(builder.import("file", ComponentTypeRef::Type(TypeBounds::SubResource)), 0);
        /// assert_eq!(builder.finish()[8..], *b"\x0a\x09\x01\0\x04file\x03\x01");
        /// ```
        fn import | try_import<'a>(
            &mut self,
            name: impl Into<ComponentExternName<'a>>,
            ty: ComponentTypeRef,
        ) -> u32 as (name.into().into_proved(), ty);

        /// Adds an export of the item of this kind with this index, optionally ascribing a type.
        /// Returns the index of the new item that the export defines. The name is its debug name
        /// too.
        fn export | try_export<'a>(
            &mut self,
            name: impl Into<ComponentExternName<'a>>,
            kind: ComponentExportKind,
            idx: u32,
            ty: Option<ComponentTypeRef>,
        ) -> u32 as (name.into().into_proved(), kind, idx, ty);

        /// Adds an alias of a core instance's export of this kind and name, and returns its index.
        fn core_alias_export | try_core_alias_export(
            &mut self,
            debug_name: Option<&str>,
            instance: u32,
            name: &str,
            kind: ExportKind,
        ) -> u32;

        /// Adds an alias and returns its index in the space of its kind.
        fn alias | try_alias(&mut self, debug_name: Option<&str>, alias: Alias<'_>) -> u32;

        /// Adds an alias of an instance's export of this kind and name, and returns its index. The
        /// name is its debug name too.
        fn alias_export | try_alias_export(
            &mut self,
            instance: u32,
            name: &str,
            kind: ComponentExportKind,
        ) -> u32;

        /// Adds a core module and returns its index.
        fn core_module | try_core_module(
            &mut self,
            debug_name: Option<&str>,
            module: &Module,
        ) -> u32 {
            self.try_core_module_raw(debug_name, module.as_slice())
        }

        /// Adds a core module given as bytes, at most 4294967295, and returns its index. The bytes
        /// aren't checked.
        fn core_module_raw | try_core_module_raw(
            &mut self,
            debug_name: Option<&str>,
            module: &[u8],
        ) -> u32;

        /// Finishes another builder, nests its component and returns the component's index. Fails
        /// if either builder is unfinished. The other builder is dropped even if the call fails.
        ///
        /// ```
        /// use wenc::ComponentBuilder;
        ///
        /// let mut nested = ComponentBuilder::default();
        /// nested.task_cancel();
        /// let mut builder = ComponentBuilder::default();
        /// assert_eq!(builder.component(Some("inner"), nested), 0);
        /// assert_eq!(builder.finish()[8..], *b"\x04\x0c\0asm\x0d\0\x01\0\x08\x02\x01\x05");
        /// ```
        fn component | try_component(
            &mut self,
            debug_name: Option<&str>,
            builder: ComponentBuilder,
        ) -> u32 as (debug_name, builder.0);

        /// Nests the component of another builder and returns the component's index. That builder
        /// is unchanged, so it can be nested again, also after an error. Upstream has no such call.
        fn component_ref | try_component_ref(
            &mut self,
            debug_name: Option<&str>,
            builder: &ComponentBuilder,
        ) -> u32 as (debug_name, &builder.0);

        /// Nests a component given as bytes, at most 4294967295, and returns its index. The bytes
        /// aren't checked.
        fn component_raw | try_component_raw(
            &mut self,
            debug_name: Option<&str>,
            data: &[u8],
        ) -> u32;

        /// Adds a start function with these value indices as arguments. It defines `results`
        /// values; returns the index of the first, which is the number of values before the call.
        ///
        /// A valid component has at most one start; this isn't checked.
        fn start | try_start(&mut self, function_index: u32, args: Vec<u32>, results: u32) -> u32;

        /// Adds a custom section.
        fn custom_section | try_custom_section(&mut self, section: &CustomSection<'_>) -> ()
            as (&section.borrowed());

        /// Adds a custom section given as its bytes after the id: its size, name and data. The
        /// bytes aren't checked.
        fn raw_custom_section | try_raw_custom_section(&mut self, section: &[u8]) -> ();

        /// Adds a producers section, the custom section with the name `producers` (tool
        /// conventions, "Producers Section").
        ///
        /// ```
        /// use wenc::{ComponentBuilder, ProducersField, ProducersSection};
        ///
        /// let mut kits = ProducersField::new();
        /// kits.value("a", "1");
        /// let mut producers = ProducersSection::new();
        /// producers.field("sdk", &kits);
        ///
        /// let mut builder = ComponentBuilder::default();
        /// builder.producers_section(&producers);
        /// assert_eq!(builder.finish()[8..], *b"\x00\x14\x09producers\x01\x03sdk\x01\x01a\x011");
        /// ```
        fn producers_section | try_producers_section(&mut self, section: &ProducersSection) -> ()
            as (&section.0);
    }
}
