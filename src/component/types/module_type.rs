//! Types of core modules.

use super::declarations;
use crate::collections::collections;
use crate::encoders::Public;
use crate::twins::twins;
use crate::{CoreTypeEncoder, EntityType};

collections! {
    /// The type of a core module: its imports and exports, and the core types that these need
    /// ([component model, binary format, "Type Definitions"][types]).
    ///
    /// ```
    /// use wenc::{Component, CoreTypeSection, EntityType, ModuleType, ValType};
    ///
    /// let mut ty = ModuleType::new();
    /// ty.ty().function([ValType::I32], []);
    /// ty.export("run", EntityType::Function(0));
    ///
    /// let mut types = CoreTypeSection::new();
    /// types.ty().module(&ty);
    /// let mut component = Component::new();
    /// component.section(&types);
    /// assert_eq!(
    ///     component.as_slice()[8..],
    ///     *b"\x03\x0f\x01\x50\x02\x01\x60\x01\x7f\0\x03\x03run\0\0",
    /// );
    /// ```
    ///
    /// [types]: https://github.com/WebAssembly/component-model/blob/main/design/mvp/Binary.md#type-definitions
    ModuleType;
}

declarations! { ModuleType }

impl ModuleType {
    twins! {
        /// Declares an import by the module's and the item's names and the item's type.
        ///
        /// Fails with [`Unsupported`](crate::Error::Unsupported) if the type isn't in WebAssembly
        /// 3.0, such as that of a shared table.
        fn import | try_import(&mut self, module: &str, name: &str, ty: EntityType) -> &mut Self
            as (module, name, ty.try_into()?);

        /// Begins the declaration of a core type and returns its encoder.
        ///
        /// If the encoder is dropped before it has ended that type, this one is unfinished: it
        /// rejects further additions and can't be encoded until
        /// [`discard_unfinished`](Self::discard_unfinished).
        #[must_use = "the encoder has to encode the type"]
        fn ty | try_ty(&mut self) -> CoreTypeEncoder<'_> {
            Ok(self.0.ty()?.public())
        }

        /// Declares an alias of the core type with this index in an enclosing component, `count`
        /// components further out.
        fn alias_outer_core_type | try_alias_outer_core_type(
            &mut self,
            count: u32,
            index: u32,
        ) -> &mut Self;

        /// Does what [`alias_outer_core_type`](Self::alias_outer_core_type) does, but returns the
        /// alias's index.
        fn alias_core_type | try_alias_core_type(&mut self, count: u32, outer: u32) -> u32;

        /// Declares an export by its name and type.
        ///
        /// Fails with [`Unsupported`](crate::Error::Unsupported) if the type isn't in WebAssembly
        /// 3.0, such as that of a shared table.
        fn export | try_export(&mut self, name: &str, ty: EntityType) -> &mut Self
            as (name, ty.try_into()?);
    }

    /// Returns the number of core types: declared ones, of which a
    /// [recursion group](crate::CoreTypeEncoder::rec) is one, including an unfinished one, and
    /// outer aliases.
    pub fn type_count(&self) -> u32 {
        self.0.type_count()
    }
}
