//! The number of items of each kind in a builder.

use crate::component::ComponentBuilder;
#[cfg(feature = "walk")]
use crate::tree::Space;
use core::fmt;

/// Defines calls that return a number of items.
macro_rules! counts {
    ($($name:ident $space:ident $what:literal;)*) => {
        /// Item counts. An unfinished type is counted; each count is the index of the next item of
        /// its kind ([explainer, "Index Spaces"][spaces]), except that a recursion group counts as
        /// one core type ([`core_type`](Self::core_type)).
        ///
        /// [spaces]: https://github.com/WebAssembly/component-model/blob/main/design/mvp/Explainer.md#index-spaces
        impl ComponentBuilder {
            $(
                #[doc = concat!("Returns the number of ", $what, ".")]
                #[inline]
                pub fn $name(&self) -> u32 {
                    self.0.$name()
                }
            )*
        }

        #[cfg(feature = "walk")]
        impl ComponentBuilder {
            /// Returns the number of items in an index space: what the call of that space returns,
            /// such as [`func_count`](Self::func_count) for [`Space::Funcs`].
            ///
            /// Needs the feature `walk`.
            ///
            /// ```
            /// use wenc::tree::Space;
            /// use wenc::{ComponentBuilder, ComponentTypeRef, TypeBounds};
            ///
            /// let mut builder = ComponentBuilder::default();
            /// builder.import("file", ComponentTypeRef::Type(TypeBounds::SubResource));
            /// assert_eq!((builder.count(Space::Types), builder.count(Space::Funcs)), (1, 0));
            /// ```
            #[inline]
            pub fn count(&self, space: Space) -> u32 {
                match space {
                    $(Space::$space => self.$name(),)*
                }
            }
        }

        /// Prints whether the builder is finished, and the counts that aren't 0.
        impl fmt::Debug for ComponentBuilder {
            #[inline]
            fn fmt(&self, f: &mut fmt::Formatter<'_>) -> fmt::Result {
                let mut printed = f.debug_struct("ComponentBuilder");
                printed.field("is_finished", &self.is_finished());
                $(if self.$name() > 0 {
                    printed.field(stringify!($name), &self.$name());
                })*
                printed.finish_non_exhaustive()
            }
        }
    };
}

counts! {
    core_module_count CoreModules "core modules";
    core_func_count CoreFuncs "core functions";
    core_type_count CoreTypes "core types";
    core_memory_count CoreMemories "core memories";
    core_table_count CoreTables "core tables";
    core_instance_count CoreInstances "core instances";
    core_tag_count CoreTags "core tags";
    core_global_count CoreGlobals "core globals";
    func_count Funcs "functions";
    instance_count Instances "instances";
    value_count Values "values";
    component_count Components "components";
    type_count Types "types";
}
