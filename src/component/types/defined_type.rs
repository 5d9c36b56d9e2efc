//! The encoder of defined value types.

use super::{ComponentValType, PrimitiveValType};
use crate::adapters::{Labelled, List, is_array};
use crate::encoders::{encoders, on};
use crate::proved::wenc_base::Fault;
#[cfg(feature = "tree")]
use crate::tree::DefinedTree;
use crate::twins::twins;

encoders! {
    /// Encodes a defined value type ([component model, binary format, "Type Definitions"][types]).
    /// Each of its calls ends the type.
    ///
    /// If it is dropped, or its call fails, the type is unfinished, and the parent rejects further
    /// additions until `discard_unfinished`.
    ///
    /// [types]: https://github.com/WebAssembly/component-model/blob/main/design/mvp/Binary.md#type-definitions
    ///
    /// ```
    /// use wenc::{Component, ComponentTypeSection, ComponentValType, PrimitiveValType};
    ///
    /// let mut types = ComponentTypeSection::new();
    /// types.defined_type().enum_type(["low", "high"]);
    /// types.defined_type().list(PrimitiveValType::U8);
    /// types.defined_type().record([
    ///     ("level", ComponentValType::Type(0)),
    ///     ("bytes", ComponentValType::Type(1)),
    /// ]);
    ///
    /// let mut component = Component::new();
    /// component.section(&types);
    /// assert_eq!(
    ///     component.as_slice()[8..],
    ///     *b"\x07\x1e\x03\x6d\x02\x03low\x04high\x70\x7d\x72\x02\x05level\0\x05bytes\x01",
    /// );
    /// ```
    #[must_use = "an encoder that is dropped leaves its type unfinished"]
    ComponentDefinedTypeEncoder by DefinedBy over ComponentTypeSection;
}

/// Makes a call with a list, as [`with_list`](crate::adapters::with_list) does, but compiled for
/// arrays only over the builder: with each parent it would be compiled four times.
macro_rules! define {
    ($self:ident.$name:ident, $array:ty: $list:expr => $item:ty) => {{
        fn listed(by: DefinedBy<'_>, list: List<'_, $item>) -> Result<(), Fault> {
            on!(by, DefinedBy, encoder => encoder.$name(list))
        }

        let mut list = $list;
        if const { is_array::<$array>() } {
            if let DefinedBy::Builder(encoder) = $self.by {
                return Ok(encoder.$name(list)?);
            }
        }
        Ok(listed($self.by, List(&mut list))?)
    }};
}

impl ComponentDefinedTypeEncoder<'_> {
    twins! {
        /// Defines a primitive type.
        fn primitive | try_primitive(self, ty: PrimitiveValType) -> () {
            Ok(on!(self.by, DefinedBy, encoder => encoder.primitive(ty))?)
        }

        /// Defines a `record` with the names and types of its fields.
        fn record | try_record<'a, F, T>(self, fields: F) -> ()
        where {
            F: IntoIterator<Item = (&'a str, T)>,
            T: Into<ComponentValType>,
        }
        {
            define!(self.record, F: Labelled(fields.into_iter()) => (&str, ComponentValType))
        }

        /// Defines a `variant` with the names of its cases, each with an optional payload type.
        fn variant | try_variant<'a, C>(self, cases: C) -> ()
        where {
            C: IntoIterator<Item = (&'a str, Option<ComponentValType>)>,
        }
        {
            define!(self.variant, C: cases.into_iter() => (&str, Option<ComponentValType>))
        }

        /// Defines a `list` of any length.
        fn list | try_list(self, ty: impl Into<ComponentValType>) -> () {
            let ty = ty.into();
            Ok(on!(self.by, DefinedBy, encoder => encoder.list(ty))?)
        }

        /// Defines a `map` from keys to values.
        fn map | try_map(
            self,
            key: impl Into<ComponentValType>,
            value: impl Into<ComponentValType>,
        ) -> () {
            let (key, value) = (key.into(), value.into());
            Ok(on!(self.by, DefinedBy, encoder => encoder.map(key, value))?)
        }

        /// Defines a `list` of a fixed length.
        fn fixed_length_list | try_fixed_length_list(
            self,
            ty: impl Into<ComponentValType>,
            elements: u32,
        ) -> () {
            let ty = ty.into();
            Ok(on!(self.by, DefinedBy, encoder => encoder.fixed_length_list(ty, elements))?)
        }

        /// Defines a `tuple` of values of these types.
        fn tuple | try_tuple<I, T>(self, types: I) -> ()
        where {
            I: IntoIterator<Item = T>,
            T: Into<ComponentValType>,
        }
        {
            define!(self.tuple, I: types.into_iter().map(T::into) => ComponentValType)
        }

        /// Defines `flags` with these names.
        fn flags | try_flags<'a, I>(self, names: I) -> ()
        where {
            I: IntoIterator<Item = &'a str>,
        }
        {
            define!(self.flags, I: names.into_iter() => &str)
        }

        /// Defines an `enum` with these cases.
        fn enum_type | try_enum_type<'a, I>(self, tags: I) -> ()
        where {
            I: IntoIterator<Item = &'a str>,
        }
        {
            define!(self.enum_type, I: tags.into_iter() => &str)
        }

        /// Defines an `option`.
        fn option | try_option(self, ty: impl Into<ComponentValType>) -> () {
            let ty = ty.into();
            Ok(on!(self.by, DefinedBy, encoder => encoder.option(ty))?)
        }

        /// Defines a `result`, each case with an optional payload type.
        fn result | try_result(
            self,
            ok: Option<ComponentValType>,
            err: Option<ComponentValType>,
        ) -> () {
            Ok(on!(self.by, DefinedBy, encoder => encoder.result(ok, err))?)
        }

        /// Defines an `own` handle of the resource type with this index.
        fn own | try_own(self, idx: u32) -> () {
            Ok(on!(self.by, DefinedBy, encoder => encoder.own(idx))?)
        }

        /// Defines a `borrow` handle of the resource type with this index.
        fn borrow | try_borrow(self, idx: u32) -> () {
            Ok(on!(self.by, DefinedBy, encoder => encoder.borrow(idx))?)
        }

        /// Defines a `future`, optionally with a payload type.
        fn future | try_future(self, payload: Option<ComponentValType>) -> () {
            Ok(on!(self.by, DefinedBy, encoder => encoder.future(payload))?)
        }

        /// Defines a `stream`, optionally with a payload type.
        fn stream | try_stream(self, payload: Option<ComponentValType>) -> () {
            Ok(on!(self.by, DefinedBy, encoder => encoder.stream(payload))?)
        }
    }
}

#[cfg(feature = "tree")]
impl ComponentDefinedTypeEncoder<'_> {
    twins! {
        /// Encodes a type given as a tree.
        ///
        /// Needs the feature `tree`.
        fn tree | try_tree(self, ty: &DefinedTree) -> () {
            Ok(on!(self.by, DefinedBy, encoder => encoder.tree(ty))?)
        }
    }
}
