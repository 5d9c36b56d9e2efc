//! The core types of components, their encoder and their section.

use crate::collections::{collections, parents};
use crate::component::sections;
use crate::encoders::{Public, encoders, on};
#[cfg(feature = "tree")]
use crate::tree::CoreTypeTree;
use crate::twins::twins;
use crate::{CoreTypeEncoder, ModuleType};

encoders! {
    /// Encodes a core type in a component: a module type, or another one ([component model, binary
    /// format, "Type Definitions"][types]).
    ///
    /// If it is dropped, or its call fails, the type is unfinished, and the parent rejects further
    /// additions until `discard_unfinished`.
    ///
    /// [types]: https://github.com/WebAssembly/component-model/blob/main/design/mvp/Binary.md#type-definitions
    #[must_use = "an encoder that is dropped leaves its type unfinished"]
    ComponentCoreTypeEncoder by CoreBy over CoreTypeSection;
}

impl<'a> ComponentCoreTypeEncoder<'a> {
    twins! {
        /// Encodes a module type, which ends the type. Fails if that type is unfinished.
        fn module | try_module(self, ty: &ModuleType) -> () {
            Ok(on!(self.by, CoreBy, encoder => encoder.module(&ty.0))?)
        }
    }

    /// Returns an encoder of a core type that isn't a module type.
    #[must_use = "the encoder has to encode the type"]
    #[inline]
    pub fn core(self) -> CoreTypeEncoder<'a> {
        on!(self.by, CoreBy, encoder => encoder.core().public())
    }
}

#[cfg(feature = "tree")]
impl ComponentCoreTypeEncoder<'_> {
    twins! {
        /// Encodes a type given as a tree, which ends the type.
        ///
        /// Needs the feature `tree`.
        fn tree | try_tree(self, ty: &CoreTypeTree) -> () {
            Ok(on!(self.by, CoreBy, encoder => encoder.tree(ty))?)
        }
    }
}

collections! {
    /// The section of core types (component model, binary format, "Type Definitions").
    ///
    /// ```
    /// use wenc::{Component, CoreTypeSection, ModuleType, ValType};
    ///
    /// let mut types = CoreTypeSection::new();
    /// types.ty().module(&ModuleType::new());
    /// types.ty().core().function([ValType::I64], [ValType::I32]);
    ///
    /// let mut component = Component::new();
    /// component.section(&types);
    /// assert_eq!(
    ///     component.as_slice()[8..],
    ///     [0x03, 0x08, 0x02, 0x50, 0x00, 0x60, 0x01, 0x7e, 0x01, 0x7f],
    /// );
    /// ```
    CoreTypeSection;
}

sections! { CoreTypeSection }
parents! { CoreTypeSection }

impl CoreTypeSection {
    twins! {
        /// Begins a core type and returns its encoder.
        ///
        /// If the encoder is dropped before it has ended the type, the section is unfinished: it
        /// rejects further additions and can't be encoded until
        /// [`discard_unfinished`](Self::discard_unfinished).
        #[must_use = "the encoder has to encode the type"]
        fn ty | try_ty(&mut self) -> ComponentCoreTypeEncoder<'_> {
            Ok(self.0.ty()?.public())
        }
    }
}
