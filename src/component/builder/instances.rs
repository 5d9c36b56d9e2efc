//! The builder's calls for instances of core modules and of components.

use crate::adapters::{Name, named_items, with_list};
use crate::component::{ComponentBuilder, ComponentExportKind, ComponentExternName, ModuleArg};
use crate::core::ExportKind;
use crate::proved::wasm_encoder::ComponentExternName as ProvedName;
use crate::twins::twins;

/// Instances: each call adds one, optionally with a debug name, and returns its index ([component
/// model, binary format, "Instance Definitions"][instances]).
///
/// [instances]: https://github.com/WebAssembly/component-model/blob/main/design/mvp/Binary.md#instance-definitions
impl ComponentBuilder {
    twins! {
        /// Instantiates a core module. Each argument is the name of a module that it imports from,
        /// and the core instance supplied for it.
        fn core_instantiate | try_core_instantiate<'a, A>(
            &mut self,
            debug_name: Option<&str>,
            module_index: u32,
            args: A,
        ) -> u32
        where {
            A: IntoIterator<Item = (&'a str, ModuleArg)>,
        }
        {
            with_list!(
                self.core_instantiate(debug_name: Option<&str>, module_index: u32),
                A: args.into_iter() => (&str, ModuleArg)
            )
        }

        /// Adds a core instance with these exports: the name, the kind and the index of each.
        fn core_instantiate_exports | try_core_instantiate_exports<'a, E>(
            &mut self,
            debug_name: Option<&str>,
            exports: E,
        ) -> u32
        where {
            E: IntoIterator<Item = (&'a str, ExportKind, u32)>,
        }
        {
            with_list!(
                self.core_instantiate_exports(debug_name: Option<&str>),
                E: exports.into_iter() => (&str, ExportKind, u32)
            )
        }

        /// Instantiates a component. Each argument is the name of an import, and the kind and the
        /// index of the item supplied for it.
        fn instantiate | try_instantiate<A, S>(
            &mut self,
            debug_name: Option<&str>,
            component_index: u32,
            args: A,
        ) -> u32
        where {
            A: IntoIterator<Item = (S, ComponentExportKind, u32)>,
            S: AsRef<str>,
        }
        {
            with_list!(
                self.instantiate<S: AsRef<str>>(debug_name: Option<&str>, component_index: u32),
                A: named_items(args) => (Name<S>, ComponentExportKind, u32)
            )
        }

        /// Adds an instance with these exports: the name, the kind and the index of each.
        ///
        /// ```
        /// use wenc::{ComponentBuilder, ComponentExportKind, PrimitiveValType};
        ///
        /// let mut builder = ComponentBuilder::default();
        /// let (string, encoder) = builder.type_defined(None);
        /// encoder.primitive(PrimitiveValType::String);
        /// let exports = [("t", ComponentExportKind::Type, string)];
        /// assert_eq!(builder.instantiate_exports(None, exports), 0);
        /// assert_eq!(builder.finish()[8..], *b"\x07\x02\x01\x73\
        ///     \x05\x08\x01\x01\x01\0\x01t\x03\0");
        /// ```
        fn instantiate_exports | try_instantiate_exports<'a, E, N>(
            &mut self,
            debug_name: Option<&str>,
            exports: E,
        ) -> u32
        where {
            E: IntoIterator<Item = (N, ComponentExportKind, u32)>,
            N: Into<ComponentExternName<'a>>,
        }
        {
            let named = |(name, kind, index): (N, _, _)| (name.into().into_proved(), kind, index);
            with_list!(
                self.instantiate_exports(debug_name: Option<&str>),
                E: exports.into_iter().map(named) => (ProvedName<'_>, ComponentExportKind, u32)
            )
        }
    }
}
