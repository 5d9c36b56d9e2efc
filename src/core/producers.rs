//! The producers section.

use crate::collections::collections;
use crate::core::in_either;
use crate::eq_by_bytes::eq_by_bytes;
use crate::twins::twins;

collections! {
    /// A field of a producers section, such as `processed-by`: tools with their versions.
    ProducersField;
    /// The tools that produced a module or a component, a custom section ([tool conventions,
    /// "Producers Section"][producers]).
    ///
    /// [producers]: https://github.com/WebAssembly/tool-conventions/blob/main/ProducersSection.md
    ///
    /// ```
    /// use wenc::{Component, ProducersField, ProducersSection};
    ///
    /// let mut languages = ProducersField::new();
    /// languages.value("Rust", "2024");
    /// let mut producers = ProducersSection::new();
    /// producers.field("language", &languages);
    ///
    /// let mut component = Component::new();
    /// component.section(&producers);
    /// assert_eq!(
    ///     component.as_slice()[8..],
    ///     *b"\x00\x1f\x09producers\x01\x08language\x01\x04Rust\x042024",
    /// );
    /// ```
    ProducersSection;
}

eq_by_bytes! { ProducersField ProducersSection }

in_either! {
    ProducersSection, section => section.0;
}

impl ProducersField {
    twins! {
        /// Adds a tool and its version, which may be empty.
        fn value | try_value(&mut self, name: &str, version: &str) -> &mut Self;
    }
}

impl ProducersSection {
    twins! {
        /// Adds a field. The tool conventions define `language`, `processed-by` and `sdk`, each at
        /// most once.
        fn field | try_field(&mut self, name: &str, values: &ProducersField) -> &mut Self
            as (name, &values.0);
    }
}
