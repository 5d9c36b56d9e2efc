//! Types of components.

use super::declaring;
use crate::collections::collections;
use crate::twins::twins;
use crate::{ComponentExternName, ComponentTypeRef, TypeBounds};

collections! {
    /// The type of a component: its imports and exports, and the types that these need ([component
    /// model, binary format, "Type Definitions"][types]).
    ///
    /// [types]: https://github.com/WebAssembly/component-model/blob/main/design/mvp/Binary.md#type-definitions
    ///
    /// ```
    /// use wenc::{Component, ComponentType, ComponentTypeRef, ComponentTypeSection};
    /// use wenc::{ComponentValType, PrimitiveValType};
    ///
    /// let mut ty = ComponentType::new();
    /// let params: [(&str, ComponentValType); 0] = [];
    /// ty.ty().function().params(params).result(Some(PrimitiveValType::String.into()));
    /// ty.import("name", ComponentTypeRef::Func(0));
    /// ty.export("greet", ComponentTypeRef::Func(0));
    ///
    /// let mut types = ComponentTypeSection::new();
    /// types.component(&ty);
    /// let mut component = Component::new();
    /// component.section(&types);
    /// assert_eq!(
    ///     component.as_slice()[8..],
    ///     *b"\x07\x1b\x01\x41\x03\x01\x40\0\0\x73\x03\0\x04name\x01\0\x04\0\x05greet\x01\0",
    /// );
    /// ```
    ComponentType;
}

declaring! { ComponentType }

impl ComponentType {
    twins! {
        /// Declares an import by its name and type.
        fn import | try_import<'a>(
            &mut self,
            name: impl Into<ComponentExternName<'a>>,
            ty: ComponentTypeRef,
        ) -> &mut Self as (name.into().into_proved(), ty);

        /// Declares an import of a type and returns its index.
        fn import_type | try_import_type<'a>(
            &mut self,
            name: impl Into<ComponentExternName<'a>>,
            bounds: TypeBounds,
        ) -> u32 as (name.into().into_proved(), bounds);

        /// Declares an import of an instance of the type with this index, and returns the
        /// instance's index.
        fn import_instance | try_import_instance<'a>(
            &mut self,
            name: impl Into<ComponentExternName<'a>>,
            ty: u32,
        ) -> u32 as (name.into().into_proved(), ty);
    }
}
