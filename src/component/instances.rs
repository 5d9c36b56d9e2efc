//! Instances of core modules and of components, and their sections.

use crate::adapters::{List, named, named_items};
use crate::collections::{add_whole, adding_whole, collections};
use crate::component::sections;
use crate::encode::encode;
use crate::proved::wasm_encoder as proved;
use crate::twins::twins;
use crate::{ComponentExportKind, ComponentExternName, ExportKind};

pub use proved::ModuleArg;

encode! {
    ModuleArg, arg => *arg;
}

collections! {
    /// The section of core instances ([component model, binary format, "Instance
    /// Definitions"][instances]).
    ///
    /// [instances]: https://github.com/WebAssembly/component-model/blob/main/design/mvp/Binary.md#instance-definitions
    ///
    /// ```
    /// use wenc::{CanonicalFunctionSection, Component, ExportKind, InstanceSection, Module};
    /// use wenc::{ModuleArg, ModuleSection};
    ///
    /// let module = Module::new();
    /// let mut functions = CanonicalFunctionSection::new();
    /// functions.task_cancel();
    /// let mut instances = InstanceSection::new();
    /// instances
    ///     .export_items([("cancel", ExportKind::Func, 0)])
    ///     .instantiate(0, [("env", ModuleArg::Instance(0))]);
    ///
    /// let mut component = Component::new();
    /// component.section(&ModuleSection(&module)).section(&functions).section(&instances);
    /// assert_eq!(
    ///     component.as_slice()[8..],
    ///     *b"\x01\x08\0asm\x01\0\0\0\x08\x02\x01\x05\
    ///       \x02\x15\x02\x01\x01\x06cancel\0\0\0\0\x01\x03env\x12\0",
    /// );
    /// ```
    InstanceSection;
    /// The section of instances of components (component model, binary format, "Instance
    /// Definitions").
    ///
    /// ```
    /// use wenc::{Component, ComponentExportKind, ComponentInstanceSection};
    /// use wenc::{ComponentTypeSection, NestedComponentSection};
    ///
    /// let mut types = ComponentTypeSection::new();
    /// types.defined_type().list(wenc::PrimitiveValType::U8);
    /// let nested = Component::new();
    /// let mut instances = ComponentInstanceSection::new();
    /// instances
    ///     .export_items([("bytes", ComponentExportKind::Type, 0)])
    ///     .instantiate(0, [("types", ComponentExportKind::Instance, 0)]);
    ///
    /// let mut component = Component::new();
    /// component.section(&types).section(&NestedComponentSection(&nested)).section(&instances);
    /// assert_eq!(
    ///     component.as_slice()[8..],
    ///     *b"\x07\x03\x01\x70\x7d\x04\x08\0asm\x0d\0\x01\0\
    ///       \x05\x17\x02\x01\x01\0\x05bytes\x03\0\0\0\x01\x05types\x05\0",
    /// );
    /// ```
    ComponentInstanceSection;
}

sections! { InstanceSection ComponentInstanceSection }
adding_whole! { InstanceSection ComponentInstanceSection }

impl InstanceSection {
    twins! {
        /// Instantiates a core module. Each argument is the name of a module that it imports from,
        /// and the core instance supplied for it.
        fn instantiate | try_instantiate<A, S>(&mut self, module_index: u32, args: A) -> &mut Self
        where {
            A: IntoIterator<Item = (S, ModuleArg)>,
            S: AsRef<str>,
        } {
            let mut args = named(args);
            add_whole(self, |section| section.0.instantiate(module_index, List(&mut args)))
        }

        /// Adds a core instance with these exports: the name, the kind and the index of each.
        fn export_items | try_export_items<E, S>(&mut self, exports: E) -> &mut Self
        where {
            E: IntoIterator<Item = (S, ExportKind, u32)>,
            S: AsRef<str>,
        } {
            let mut exports = named_items(exports);
            add_whole(self, |section| section.0.export_items(List(&mut exports)))
        }
    }
}

impl ComponentInstanceSection {
    twins! {
        /// Instantiates a component. Each argument is the name of an import, and the kind and the
        /// index of the item supplied for it.
        fn instantiate | try_instantiate<A, S>(
            &mut self,
            component_index: u32,
            args: A,
        ) -> &mut Self
        where {
            A: IntoIterator<Item = (S, ComponentExportKind, u32)>,
            S: AsRef<str>,
        } {
            let mut args = named_items(args);
            add_whole(self, |section| section.0.instantiate(component_index, List(&mut args)))
        }

        /// Adds an instance with these exports: the name, the kind and the index of each.
        fn export_items | try_export_items<'a, N, E>(&mut self, exports: E) -> &mut Self
        where {
            E: IntoIterator<Item = (N, ComponentExportKind, u32)>,
            N: Into<ComponentExternName<'a>>,
        } {
            let named = |(name, kind, index): (N, _, _)| (name.into().into_proved(), kind, index);
            let mut exports = exports.into_iter().map(named);
            add_whole(self, |section| section.0.export_items(List(&mut exports)))
        }
    }
}
