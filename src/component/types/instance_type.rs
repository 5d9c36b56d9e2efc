//! Types of instances.

use super::declaring;
use crate::collections::collections;
use crate::twins::twins;

collections! {
    /// The type of an instance: its exports, and the types that these need ([component model,
    /// binary format, "Type Definitions"][types]).
    ///
    /// [types]: https://github.com/WebAssembly/component-model/blob/main/design/mvp/Binary.md#type-definitions
    ///
    /// ```
    /// use wenc::{Component, ComponentTypeRef, ComponentTypeSection, InstanceType};
    /// use wenc::{PrimitiveValType, TypeBounds};
    ///
    /// let mut ty = InstanceType::new();
    /// ty.ty().defined_type().option(PrimitiveValType::String);
    /// ty.export("name", ComponentTypeRef::Type(TypeBounds::Eq(0)));
    /// assert_eq!((ty.len(), ty.type_count()), (2, 2));
    ///
    /// let mut types = ComponentTypeSection::new();
    /// types.instance(&ty);
    /// let mut component = Component::new();
    /// component.section(&types);
    /// assert_eq!(
    ///     component.as_slice()[8..],
    ///     *b"\x07\x10\x01\x42\x02\x01\x6b\x73\x04\0\x04name\x03\0\0",
    /// );
    /// ```
    InstanceType;
}

declaring! { InstanceType }
