//! Aliases and their section.

use crate::collections::collections;
use crate::component::sections;
use crate::encode::encode;
use crate::proved::wasm_encoder as proved;
use crate::twins::twins;

/// An alias, as an item or as a declaration of a type.
///
/// ```
/// use wenc::{Alias, ComponentBuilder, ComponentExportKind, ComponentTypeRef, InstanceType};
/// use wenc::PrimitiveValType::U8;
///
/// // an instance that exports a function, which is exported again
/// let mut interface = InstanceType::new();
/// interface.ty().function().params([("n", U8)]).result(None);
/// interface.export("f", ComponentTypeRef::Func(0));
/// let mut builder = ComponentBuilder::default();
/// let ty = builder.type_instance(None, &interface);
/// let instance = builder.import("i", ComponentTypeRef::Instance(ty));
/// let kind = ComponentExportKind::Func;
/// let f = builder.alias(None, Alias::InstanceExport { instance, kind, name: "f" });
/// builder.export("g", kind, f, None);
/// assert_eq!(
///     builder.finish(),
///     b"\0asm\x0d\0\x01\0\x07\x11\x01\x42\x02\x01\x40\x01\x01n\x7d\x01\0\x04\0\x01f\x01\0\
///       \x0a\x06\x01\0\x01i\x05\0\x06\x06\x01\x01\0\0\x01f\x0b\x07\x01\0\x01g\x01\0\0",
/// );
/// ```
pub use proved::Alias;
pub use proved::ComponentOuterAliasKind;

encode! {
    Alias<'_>, alias => *alias;
    ComponentOuterAliasKind, kind => *kind;
}

collections! {
    /// The section of aliases ([component model, binary format, "Alias Definitions"][aliases]).
    ///
    /// [aliases]: https://github.com/WebAssembly/component-model/blob/main/design/mvp/Binary.md#alias-definitions
    ///
    /// ```
    /// use wenc::{Alias, Component, ComponentAliasSection, ComponentExportKind};
    /// use wenc::{ComponentInstanceSection, ComponentOuterAliasKind, ComponentTypeSection};
    ///
    /// let kind = ComponentExportKind::Type;
    /// let mut types = ComponentTypeSection::new();
    /// types.defined_type().list(wenc::PrimitiveValType::U8);
    /// let mut instances = ComponentInstanceSection::new();
    /// instances.export_items([("bytes", kind, 0)]);
    /// let mut aliases = ComponentAliasSection::new();
    /// aliases
    ///     .alias(Alias::InstanceExport { instance: 0, kind, name: "bytes" })
    ///     .alias(Alias::Outer { kind: ComponentOuterAliasKind::Type, count: 0, index: 1 });
    ///
    /// let mut component = Component::new();
    /// component.section(&types).section(&instances).section(&aliases);
    /// assert_eq!(
    ///     component.as_slice()[8..],
    ///     *b"\x07\x03\x01\x70\x7d\x05\x0c\x01\x01\x01\0\x05bytes\x03\0\
    ///       \x06\x0e\x02\x03\0\0\x05bytes\x03\x02\0\x01",
    /// );
    /// ```
    ComponentAliasSection;
}

sections! { ComponentAliasSection }

impl ComponentAliasSection {
    twins! {
        /// Adds an alias.
        fn alias | try_alias(&mut self, alias: Alias<'_>) -> &mut Self;
    }
}
