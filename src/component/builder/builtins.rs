//! The builder's calls for builtins.

use crate::adapters::with_list;
use crate::component::canonicals::builtins;
use crate::component::{CanonicalOption, ComponentBuilder, ComponentValType};
use crate::core::ValType;
use crate::proved::wasm_encoder::{AddsBuiltin, AddsSlot};
use crate::twins::twins;

/// Defines the builder's call for each row of the table of builtins.
macro_rules! calls {
    (
        plain {
            $(
                $(#[$doc:meta])*
                $name:ident | $tried:ident ($($arg:ident: $ty:ty),*) $(or $others:tt)?;
            )*
        }
        with_options {
            $(
                $(#[$list_doc:meta])*
                $list:ident | $list_tried:ident ($($lead:ident: $lead_ty:ty),*);
            )*
        }
        of_slot {
            $(
                $(#[$slot_doc:meta])*
                $slot:ident | $slot_tried:ident;
            )*
        }
    ) => {
        /// Builtins: each call adds a core function that the component model defines, and returns
        /// its index ([explainer, "Canonical Built-ins"][builtins]).
        ///
        /// `ty` and `func_ty_idx` are type indices, those of a core type if a thread is created;
        /// `memory` is the index of a core memory, `table` and `table_index` that of a core table.
        /// `async_` says whether the builtin may return before it is done. Options are encoded in
        /// the order given.
        ///
        /// The debug name is the builtin's name, followed by the slot's number for `context.get`
        /// and `context.set`. Upstream names `thread.yield-then-promote` like
        /// `thread.yield-then-resume`, and has `thread.spawn-indirect` only for sections.
        ///
        /// [builtins]: https://github.com/WebAssembly/component-model/blob/main/design/mvp/Explainer.md
        impl ComponentBuilder {
            twins! {
                $($(#[$doc])*
                fn $name | $tried(&mut self, $($arg: $ty),*) -> u32 {
                    Ok(self.0.$name($($arg),*)?)
                })*

                $($(#[$list_doc])*
                fn $list | $list_tried<O>(&mut self, $($lead: $lead_ty,)* options: O) -> u32
                where {
                    O: IntoIterator<Item = CanonicalOption>,
                }
                {
                    with_list!(
                        self.$list($($lead: $lead_ty),*),
                        O: options.into_iter() => CanonicalOption
                    )
                })*

                $($(#[$slot_doc])*
                fn $slot | $slot_tried(&mut self, ty: ValType, i: u32) -> u32
                    as (ty.try_into()?, i);)*
            }
        }
    };
}

builtins! { calls }
