//! The encoder of the types of a component.

use super::{ComponentDefinedTypeEncoder, ComponentFuncTypeEncoder, ComponentType, InstanceType};
use crate::ValType;
use crate::encoders::{Public, encoders, on};
#[cfg(feature = "tree")]
use crate::tree::TypeTree;
use crate::twins::twins;

encoders! {
    /// Encodes a type ([component model, binary format, "Type Definitions"][types]). Each of its
    /// calls ends the type, or returns the encoder whose last call does.
    ///
    /// If it is dropped, or its call fails, the type is unfinished, and the parent rejects further
    /// additions until `discard_unfinished`.
    ///
    /// [types]: https://github.com/WebAssembly/component-model/blob/main/design/mvp/Binary.md#type-definitions
    #[must_use = "an encoder that is dropped leaves its type unfinished"]
    ComponentTypeEncoder by TypeBy over ComponentTypeSection;
}

impl<'a> ComponentTypeEncoder<'a> {
    twins! {
        /// Encodes a component type, which ends the type. Fails if that type is unfinished.
        fn component | try_component(self, ty: &ComponentType) -> () {
            Ok(on!(self.by, TypeBy, encoder => encoder.component(&ty.0))?)
        }

        /// Encodes an instance type, which ends the type. Fails if that type is unfinished.
        fn instance | try_instance(self, ty: &InstanceType) -> () {
            Ok(on!(self.by, TypeBy, encoder => encoder.instance(&ty.0))?)
        }
    }

    /// Returns an encoder of a function type.
    #[inline]
    #[must_use = "the encoder has to encode the type"]
    pub fn function(self) -> ComponentFuncTypeEncoder<'a> {
        on!(self.by, TypeBy, encoder => encoder.function().public())
    }

    /// Returns an encoder of a defined value type.
    #[inline]
    #[must_use = "the encoder has to encode the type"]
    pub fn defined_type(self) -> ComponentDefinedTypeEncoder<'a> {
        on!(self.by, TypeBy, encoder => encoder.defined_type().public())
    }

    twins! {
        /// Encodes a resource type with this representation and, optionally, the core function with
        /// this index as its destructor. This ends the type.
        fn resource | try_resource(self, rep: ValType, dtor: Option<u32>) -> () {
            let rep = rep.try_into()?;
            Ok(on!(self.by, TypeBy, encoder => encoder.resource(rep, dtor))?)
        }
    }
}

#[cfg(feature = "tree")]
impl ComponentTypeEncoder<'_> {
    twins! {
        /// Encodes a type given as a tree, which ends the type.
        ///
        /// Needs the feature `tree`.
        ///
        /// ```
        /// use wenc::tree::{DefinedTree, TypeTree};
        /// use wenc::{ComponentBuilder, PrimitiveValType};
        ///
        /// let mut builder = ComponentBuilder::default();
        /// let bytes = DefinedTree::List(PrimitiveValType::U8.into());
        /// builder.ty(Some("bytes")).1.tree(&TypeTree::Defined(bytes));
        /// assert_eq!(builder.finish()[8..], [0x07, 0x03, 0x01, 0x70, 0x7d]);
        /// ```
        fn tree | try_tree(self, ty: &TypeTree) -> () {
            Ok(on!(self.by, TypeBy, encoder => encoder.tree(ty))?)
        }
    }
}
