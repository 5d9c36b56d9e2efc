//! The builder's calls for types.

use crate::component::{
    ComponentBuilder, ComponentCoreTypeEncoder, ComponentDefinedTypeEncoder,
    ComponentFuncTypeEncoder, ComponentType, ComponentTypeEncoder, InstanceType,
};
use crate::core::ValType;
use crate::encoders::Public;
use crate::twins::twins;

/// Types: each call adds one, optionally with a debug name, and returns its index ([component
/// model, binary format, "Type Definitions"][types]).
///
/// A call that also returns an encoder begins a type, and the encoder's last call ends it. If the
/// encoder is dropped before that, or that call fails, the builder is unfinished: calls that add to
/// it or finish it fail with [`Unfinished`](crate::Error::Unfinished) until
/// [`discard_unfinished`](Self::discard_unfinished).
///
/// [types]: https://github.com/WebAssembly/component-model/blob/main/design/mvp/Binary.md#type-definitions
impl ComponentBuilder {
    twins! {
        /// Begins a core type. Returns its index and its encoder.
        ///
        /// As in upstream, a recursion group counts as one core type here, in
        /// [`core_type_count`](Self::core_type_count) and in debug names. By the standard each of
        /// its types has an index: after a group of n types add n - 1 to the indices of core types.
        fn core_type | try_core_type(
            &mut self,
            debug_name: Option<&str>,
        ) -> (u32, ComponentCoreTypeEncoder<'_>) {
            let (index, encoder) = self.0.core_type(debug_name)?;
            Ok((index, encoder.public()))
        }

        /// Begins a type. Returns its index and its encoder.
        fn ty | try_ty(&mut self, debug_name: Option<&str>) -> (u32, ComponentTypeEncoder<'_>) {
            let (index, encoder) = self.0.ty(debug_name)?;
            Ok((index, encoder.public()))
        }

        /// Adds an instance type. Fails if that type is unfinished.
        fn type_instance | try_type_instance(
            &mut self,
            debug_name: Option<&str>,
            ty: &InstanceType,
        ) -> u32 as (debug_name, &ty.0);

        /// Adds a component type. Fails if that type is unfinished.
        fn type_component | try_type_component(
            &mut self,
            debug_name: Option<&str>,
            ty: &ComponentType,
        ) -> u32 as (debug_name, &ty.0);

        /// Begins a defined value type. Returns its index and its encoder.
        ///
        /// ```
        /// use wenc::{ComponentBuilder, PrimitiveValType};
        ///
        /// let mut builder = ComponentBuilder::default();
        /// let (point, encoder) = builder.type_defined(Some("point"));
        /// encoder.record([("x", PrimitiveValType::U32), ("y", PrimitiveValType::U32)]);
        /// assert_eq!((point, builder.type_count()), (0, 1));
        /// assert_eq!(builder.finish()[8..], *b"\x07\x09\x01\x72\x02\x01x\x79\x01y\x79");
        /// ```
        fn type_defined | try_type_defined(
            &mut self,
            debug_name: Option<&str>,
        ) -> (u32, ComponentDefinedTypeEncoder<'_>) {
            let (index, encoder) = self.0.type_defined(debug_name)?;
            Ok((index, encoder.public()))
        }

        /// Begins a function type. Returns its index and its encoder, whose `result` ends it.
        ///
        /// ```
        /// use wenc::{ComponentBuilder, PrimitiveValType};
        ///
        /// let mut builder = ComponentBuilder::default();
        /// let (ty, mut encoder) = builder.type_function(None);
        /// let result = Some(PrimitiveValType::U32.into());
        /// encoder.params([("name", PrimitiveValType::String)]).result(result);
        /// assert_eq!(ty, 0);
        /// assert_eq!(builder.finish()[8..], *b"\x07\x0b\x01\x40\x01\x04name\x73\0\x79");
        /// ```
        fn type_function | try_type_function(
            &mut self,
            debug_name: Option<&str>,
        ) -> (u32, ComponentFuncTypeEncoder<'_>) {
            let (index, encoder) = self.0.type_function(debug_name)?;
            Ok((index, encoder.public()))
        }

        /// Adds a resource type with this representation and, optionally, a core function as its
        /// destructor.
        ///
        /// Fails with [`Unsupported`](crate::Error::Unsupported) if the representation is a
        /// reference that isn't in WebAssembly 3.0.
        fn type_resource | try_type_resource(
            &mut self,
            debug_name: Option<&str>,
            rep: ValType,
            dtor: Option<u32>,
        ) -> u32 as (debug_name, rep.try_into()?, dtor);
    }
}
