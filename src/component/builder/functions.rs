//! The builder's calls for functions between a component and its core modules.

use crate::adapters::with_list;
use crate::component::{CanonicalOption, ComponentBuilder};
use crate::twins::twins;

/// Lifted and lowered functions: each call adds one, optionally with a debug name, and returns its
/// index ([component model, binary format, "Canonical Definitions"][canon]). Options are encoded in
/// the order given.
///
/// [canon]: https://github.com/WebAssembly/component-model/blob/main/design/mvp/Binary.md#canonical-definitions
impl ComponentBuilder {
    twins! {
        /// Lowers a function (`canon lower`) and returns the core function's index.
        fn lower_func | try_lower_func<O>(
            &mut self,
            debug_name: Option<&str>,
            func_index: u32,
            options: O,
        ) -> u32
        where {
            O: IntoIterator<Item = CanonicalOption>,
        }
        {
            with_list!(
                self.lower_func(debug_name: Option<&str>, func_index: u32),
                O: options.into_iter() => CanonicalOption
            )
        }

        /// Lifts a core function to the type with this index (`canon lift`) and returns the
        /// function's index.
        ///
        /// ```
        /// use wenc::{ComponentBuilder, ModuleArg, PrimitiveValType};
        ///
        /// let mut builder = ComponentBuilder::default();
        /// // A module that exports `f`, which does nothing.
        /// let module = builder.core_module_raw(
        ///     None,
        ///     b"\0asm\x01\0\0\0\x01\x04\x01\x60\0\0\x03\x02\x01\0\
        ///       \x07\x05\x01\x01f\0\0\x0a\x04\x01\x02\0\x0b",
        /// );
        /// let instance = builder.core_instantiate(None, module, [] as [(&str, ModuleArg); 0]);
        /// let core = builder.core_alias_export(None, instance, "f", wenc::ExportKind::Func);
        /// let (ty, mut encoder) = builder.type_function(None);
        /// encoder.params([] as [(&str, PrimitiveValType); 0]).result(None);
        ///
        /// let function = builder.lift_func(Some("f"), core, ty, []);
        /// assert_eq!((function, builder.func_count()), (0, 1));
        /// assert_eq!(
        ///     builder.finish()[8..],
        ///     *b"\x01\x1f\0asm\x01\0\0\0\
        ///       \x01\x04\x01\x60\0\0\x03\x02\x01\0\x07\x05\x01\x01f\0\0\x0a\x04\x01\x02\0\x0b\
        ///       \x02\x04\x01\0\0\0\x06\x07\x01\0\0\x01\0\x01f\x07\x05\x01\x40\0\x01\0\
        ///       \x08\x06\x01\0\0\0\0\0",
        /// );
        /// ```
        fn lift_func | try_lift_func<O>(
            &mut self,
            debug_name: Option<&str>,
            core_func_index: u32,
            type_index: u32,
            options: O,
        ) -> u32
        where {
            O: IntoIterator<Item = CanonicalOption>,
        }
        {
            with_list!(
                self.lift_func(debug_name: Option<&str>, core_func_index: u32, type_index: u32),
                O: options.into_iter() => CanonicalOption
            )
        }
    }
}
