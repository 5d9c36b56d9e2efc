//! Canonical functions: lifted and lowered ones, builtins, and their section.

mod builtins;

pub(crate) use builtins::builtins;

use crate::adapters::List;
use crate::collections::{add_whole, adding_whole, collections};
use crate::component::{ComponentValType, sections};
use crate::core::ValType;
use crate::proved::wasm_encoder::{AddsBuiltin, AddsSlot};
use crate::twins::twins;

/// An option of a lifted or a lowered function, or of a builtin.
///
/// ```
/// use wenc::{CanonicalOption, ComponentBuilder, ComponentTypeRef, PrimitiveValType};
///
/// // an import that core modules can call
/// let mut builder = ComponentBuilder::default();
/// let (ty, mut function) = builder.type_function(None);
/// function.params([("n", PrimitiveValType::U8)]).result(None);
/// let f = builder.import("f", ComponentTypeRef::Func(ty));
/// builder.lower_func(None, f, [CanonicalOption::UTF8]);
/// assert_eq!(
///     builder.finish(),
///     b"\0asm\x0d\0\x01\0\x07\x08\x01\x40\x01\x01n\x7d\x01\0\x0a\x06\x01\0\x01f\x01\0\
///       \x08\x06\x01\x01\0\0\x01\0",
/// );
/// ```
pub use crate::proved::wasm_encoder::CanonicalOption;

crate::encode::encode! {
    CanonicalOption, option => *option;
}

collections! {
    /// The section of canonical functions ([component model, binary format, "Canonical
    /// Definitions"][canon]).
    ///
    /// [canon]: https://github.com/WebAssembly/component-model/blob/main/design/mvp/Binary.md#canonical-definitions
    ///
    /// ```
    /// use wenc::{CanonicalFunctionSection, CanonicalOption, Component, ComponentImportSection};
    /// use wenc::{ComponentTypeRef, ComponentTypeSection, PrimitiveValType};
    ///
    /// let mut types = ComponentTypeSection::new();
    /// types.function().params([("n", PrimitiveValType::U32)]).result(None);
    /// let mut imports = ComponentImportSection::new();
    /// imports.import("f", ComponentTypeRef::Func(0));
    /// let mut functions = CanonicalFunctionSection::new();
    /// functions.lower(0, [CanonicalOption::UTF8]).task_cancel();
    /// assert_eq!(functions.len(), 2);
    ///
    /// let mut component = Component::new();
    /// component.section(&types).section(&imports).section(&functions);
    /// assert_eq!(
    ///     component.as_slice()[8..],
    ///     *b"\x07\x08\x01\x40\x01\x01n\x79\x01\0\x0a\x06\x01\0\x01f\x01\0\
    ///       \x08\x07\x02\x01\0\0\x01\0\x05",
    /// );
    /// ```
    CanonicalFunctionSection;
}

sections! { CanonicalFunctionSection }
adding_whole! { CanonicalFunctionSection }

/// Lifted and lowered functions. Options are encoded in the order given.
impl CanonicalFunctionSection {
    twins! {
        /// Lifts a core function to the type with this index (`canon lift`).
        fn lift | try_lift<O>(
            &mut self,
            core_func_index: u32,
            type_index: u32,
            options: O,
        ) -> &mut Self
        where {
            O: IntoIterator<Item = CanonicalOption>,
        }
        {
            let mut options = options.into_iter();
            add_whole(self, |section| {
                section.0.lift(core_func_index, type_index, List(&mut options))
            })
        }

        /// Lowers a function (`canon lower`).
        fn lower | try_lower<O>(&mut self, func_index: u32, options: O) -> &mut Self
        where {
            O: IntoIterator<Item = CanonicalOption>,
        }
        {
            let mut options = options.into_iter();
            add_whole(self, |section| section.0.lower(func_index, List(&mut options)))
        }
    }
}

/// Defines the section's call for each row of the table of builtins.
macro_rules! calls {
    (
        plain {
            $(
                $(#[$doc:meta])*
                $name:ident | $tried:ident $args:tt $(or $own:tt)?;
            )*
        }
        with_options {
            $(
                $(#[$list_doc:meta])*
                $list:ident | $list_tried:ident ($($arg:ident: $ty:ty),*);
            )*
        }
        of_slot {
            $(
                $(#[$slot_doc:meta])*
                $slot:ident | $slot_tried:ident;
            )*
        }
    ) => {
        /// Builtins: core functions that the component model defines.
        ///
        /// `ty_index` and `ty` are type indices, those of a core type if a thread is created;
        /// `memory` is the index of a core memory, `table_index` that of a core table. `async_`
        /// says whether the builtin may return before it is done. Options are encoded in the order
        /// given.
        impl CanonicalFunctionSection {
            $(calls! { @plain [$(#[$doc])*] $name $tried $args $($own)? })*

            twins! {
                $($(#[$list_doc])*
                fn $list | $list_tried<O>(&mut self, $($arg: $ty,)* options: O) -> &mut Self
                where {
                    O: IntoIterator<Item = CanonicalOption>,
                }
                {
                    let mut options = options.into_iter();
                    add_whole(self, |section| section.0.$list($($arg,)* List(&mut options)))
                })*

                $($(#[$slot_doc])*
                fn $slot | $slot_tried(&mut self, ty: ValType, i: u32) -> &mut Self
                    as (ty.try_into()?, i);)*
            }
        }
    };
    (@plain $docs:tt $name:ident $tried:ident $args:tt $own:tt) => {
        calls! { @plain $docs $name $tried $own }
    };
    (@plain [$(#[$doc:meta])*] $name:ident $tried:ident ($($arg:ident: $ty:ty),*)) => {
        twins! {
            $(#[$doc])*
            fn $name | $tried(&mut self, $($arg: $ty),*) -> &mut Self {
                self.0.$name($($arg),*)?;
                Ok(self)
            }
        }
    };
}

builtins! { calls }
