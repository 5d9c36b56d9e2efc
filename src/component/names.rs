//! The section of debug names.

use crate::collections::collections;
use crate::eq_by_bytes::eq_by_bytes;
use crate::proved::wasm_encoder as proved;
#[cfg(feature = "walk")]
use crate::tree::Space;
use crate::twins::twins;
use crate::{ComponentSection, CustomSection, NameMap};

collections! {
    /// Debug names of a component and its items, a custom section ([component model, binary format,
    /// "Name Section"][names]). The calls may come in any order.
    ///
    /// [names]: https://github.com/WebAssembly/component-model/blob/main/design/mvp/Binary.md#name-section
    ///
    /// ```
    /// use wenc::{Component, ComponentNameSection, NameMap};
    ///
    /// let mut funcs = NameMap::new();
    /// funcs.append(0, "now");
    /// let mut names = ComponentNameSection::new();
    /// names.component("clock");
    /// names.funcs(&funcs);
    ///
    /// let mut component = Component::new();
    /// component.section(&names);
    /// assert_eq!(
    ///     component.as_slice()[8..],
    ///     *b"\x00\x20\x0ecomponent-name\x00\x06\x05clock\x01\x07\x01\x01\x00\x03now",
    /// );
    /// ```
    ComponentNameSection;
}

eq_by_bytes! { ComponentNameSection }

/// Defines the calls that name items of one kind.
macro_rules! naming {
    ($($name:ident $tried:ident $space:ident $what:literal;)*) => {
        #[cfg(feature = "walk")]
        impl ComponentNameSection {
            twins! {
                /// Names items in an index space: does what the call of that space does, such as
                /// [`funcs`](Self::funcs) for [`Space::Funcs`].
                ///
                /// Needs the feature `walk`.
                ///
                /// ```
                /// use wenc::tree::Space;
                /// use wenc::{ComponentNameSection, NameMap};
                ///
                /// let mut funcs = NameMap::new();
                /// funcs.append(0, "now");
                /// let mut names = ComponentNameSection::new();
                /// names.names(Space::Funcs, &funcs);
                /// assert_eq!(*names.as_custom().data, *b"\x01\x07\x01\x01\x00\x03now");
                /// ```
                fn names | try_names(&mut self, space: Space, names: &NameMap) -> () {
                    match space {
                        $(Space::$space => self.$tried(names),)*
                    }
                }
            }
        }

        impl ComponentNameSection {
            twins! {
                $(
                    #[doc = concat!("Names ", $what, ".")]
                    fn $name | $tried(&mut self, names: &NameMap) -> () as (&names.0);
                )*
            }
        }
    };
}

impl ComponentNameSection {
    twins! {
        /// Names the component itself. The standard puts this name first.
        fn component | try_component(&mut self, name: &str) -> ();

        /// Appends a subsection given as its id, from 0 to 255, and its bytes after the size. The
        /// bytes aren't checked.
        fn raw | try_raw(&mut self, id: u8, data: &[u8]) -> ();
    }

    /// Returns `true` if the section has no subsections.
    pub fn is_empty(&self) -> bool {
        self.0.is_empty()
    }

    /// Returns the section as a custom section, without allocating.
    pub fn as_custom<'a>(&'a self) -> CustomSection<'a> {
        let proved::CustomSection { name, data } = self.0.as_custom();
        CustomSection { name: name.into(), data: data.into() }
    }
}

naming! {
    core_funcs try_core_funcs CoreFuncs "functions of core modules";
    core_tables try_core_tables CoreTables "tables of core modules";
    core_memories try_core_memories CoreMemories "memories of core modules";
    core_globals try_core_globals CoreGlobals "globals of core modules";
    core_tags try_core_tags CoreTags "tags of core modules";
    core_types try_core_types CoreTypes "core types";
    core_modules try_core_modules CoreModules "core modules";
    core_instances try_core_instances CoreInstances "instances of core modules";
    funcs try_funcs Funcs "functions";
    values try_values Values "values";
    types try_types Types "types";
    components try_components Components "components";
    instances try_instances Instances "instances";
}

impl ComponentSection for ComponentNameSection {
    fn id(&self) -> u8 {
        proved::ComponentSection::id(&self.0)
    }
}
