//! The encoder of function types.

use crate::adapters::{Labelled, List, is_array};
use crate::encoders::{encoders, on};
use crate::proved::wasm_encoder::FuncStage;
use crate::twins::twins;
use crate::{ComponentValType, Error};

encoders! {
    /// Encodes a function type: whether it is async, then its parameters, then its result, which
    /// ends the type ([component model, binary format, "Type Definitions"][types]).
    ///
    /// A call that fails leaves what was encoded, and may be repeated. If the encoder is dropped
    /// before its last call, the type is unfinished, and the parent rejects further additions until
    /// `discard_unfinished`.
    ///
    /// [types]: https://github.com/WebAssembly/component-model/blob/main/design/mvp/Binary.md#type-definitions
    ///
    /// ```
    /// use wenc::{Component, ComponentTypeSection, PrimitiveValType};
    ///
    /// let mut types = ComponentTypeSection::new();
    /// let mut function = types.function();
    /// function.async_(true).params([("x", PrimitiveValType::U32)]);
    /// function.result(Some(PrimitiveValType::Bool.into()));
    ///
    /// let mut component = Component::new();
    /// component.section(&types);
    /// assert_eq!(component.as_slice()[8..], *b"\x07\x08\x01\x43\x01\x01x\x79\0\x7f");
    /// ```
    #[must_use = "an encoder that is dropped leaves its type unfinished"]
    ComponentFuncTypeEncoder by FuncBy over ComponentTypeSection;
}

impl ComponentFuncTypeEncoder<'_> {
    /// Fails unless this or the other is the current stage. After an iterator of parameters
    /// panicked, it is [`FuncStage::Done`], since it is unspecified which were written.
    #[inline]
    fn at(&self, this: FuncStage, other: FuncStage) -> Result<(), Error> {
        let stage = on!(&self.by, FuncBy, encoder => encoder.stage());
        if stage == this || stage == other { Ok(()) } else { Err(Error::OutOfTurn) }
    }

    /// Encodes the parameters, compiled once rather than for each iterator.
    fn listed(&mut self, params: List<'_, (&str, ComponentValType)>) -> Result<&mut Self, Error> {
        self.at(FuncStage::Start, FuncStage::Tagged)?;
        on!(&mut self.by, FuncBy, encoder => encoder.params(params))?;
        Ok(self)
    }

    twins! {
        /// Sets whether the function is async. Without this call it isn't.
        ///
        /// Fails with [`OutOfTurn`](Error::OutOfTurn) if this or [`params`](Self::params) was
        /// called before.
        fn async_ | try_async(&mut self, is_async: bool) -> &mut Self {
            self.at(FuncStage::Start, FuncStage::Start)?;
            on!(&mut self.by, FuncBy, encoder => encoder.async_(is_async))?;
            Ok(self)
        }

        /// Sets the names and types of the parameters.
        ///
        /// Fails with [`OutOfTurn`](Error::OutOfTurn) if it was called before.
        fn params | try_params<'b, P, T>(&mut self, params: P) -> &mut Self
        where {
            P: IntoIterator<Item = (&'b str, T)>,
            T: Into<ComponentValType>,
        }
        {
            let mut params = Labelled(params.into_iter());
            if const { is_array::<P>() } {
                self.at(FuncStage::Start, FuncStage::Tagged)?;
                if let FuncBy::Builder(encoder) = &mut self.by {
                    encoder.params(params)?;
                    return Ok(self);
                }
            }
            self.listed(List(&mut params))
        }

        /// Sets the type of the result, if there is one. This ends the type.
        ///
        /// Fails with [`OutOfTurn`](Error::OutOfTurn) before [`params`](Self::params), or if it was
        /// called before.
        fn result | try_result(&mut self, ty: Option<ComponentValType>) -> &mut Self {
            self.at(FuncStage::Params, FuncStage::Params)?;
            on!(&mut self.by, FuncBy, encoder => encoder.result(ty))?;
            Ok(self)
        }
    }
}
