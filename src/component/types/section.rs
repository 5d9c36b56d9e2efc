//! The section of types.

use super::{
    ComponentDefinedTypeEncoder, ComponentFuncTypeEncoder, ComponentType, ComponentTypeEncoder,
    InstanceType,
};
use crate::ValType;
use crate::collections::{collections, parents};
use crate::component::sections;
use crate::encoders::Public;
use crate::twins::twins;

collections! {
    /// The section of types ([component model, binary format, "Type Definitions"][types]).
    ///
    /// ```
    /// use wenc::{Component, ComponentTypeSection, PrimitiveValType, ValType};
    ///
    /// let mut types = ComponentTypeSection::new();
    /// types.resource(ValType::I32, None);
    /// types.defined_type().own(0);
    /// types.function().params([("a", PrimitiveValType::String)]).result(None);
    ///
    /// let mut component = Component::new();
    /// component.section(&types);
    /// assert_eq!(
    ///     component.as_slice()[8..],
    ///     *b"\x07\x0d\x03\x3f\x7f\0\x69\0\x40\x01\x01a\x73\x01\0",
    /// );
    /// ```
    ///
    /// [types]: https://github.com/WebAssembly/component-model/blob/main/design/mvp/Binary.md#type-definitions
    ComponentTypeSection;
}

sections! { ComponentTypeSection }
parents! { ComponentTypeSection }

impl ComponentTypeSection {
    twins! {
        /// Begins a type and returns its encoder.
        ///
        /// If the encoder is dropped before it has ended the type, the section is unfinished: it
        /// rejects further additions and can't be encoded until
        /// [`discard_unfinished`](Self::discard_unfinished).
        #[must_use = "the encoder has to encode the type"]
        fn ty | try_ty(&mut self) -> ComponentTypeEncoder<'_> {
            Ok(self.0.ty()?.public())
        }

        /// Adds a component type. Fails if that type is unfinished.
        fn component | try_component(&mut self, ty: &ComponentType) -> &mut Self as (&ty.0);

        /// Adds an instance type. Fails if that type is unfinished.
        fn instance | try_instance(&mut self, ty: &InstanceType) -> &mut Self as (&ty.0);

        /// Begins a function type and returns its encoder, whose `result` ends it; see
        /// [`ty`](Self::ty).
        #[must_use = "the encoder has to encode the type"]
        fn function | try_function(&mut self) -> ComponentFuncTypeEncoder<'_> {
            Ok(self.0.function()?.public())
        }

        /// Begins a defined value type and returns its encoder; see [`ty`](Self::ty).
        #[must_use = "the encoder has to encode the type"]
        fn defined_type | try_defined_type(&mut self) -> ComponentDefinedTypeEncoder<'_> {
            Ok(self.0.defined_type()?.public())
        }

        /// Adds a resource type with this representation and, optionally, the core function with
        /// this index as its destructor.
        fn resource | try_resource(&mut self, rep: ValType, dtor: Option<u32>) -> &mut Self
            as (rep.try_into()?, dtor);
    }
}
