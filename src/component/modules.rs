//! Core modules in components.

use crate::encode::encode;
use crate::{ComponentSection, ComponentSectionId, Module};

/// A section that is a core module ([component model, binary format, "Component
/// Definitions"][definitions]). It can't be encoded if the module has more than 4294967295 bytes.
///
/// [definitions]: https://github.com/WebAssembly/component-model/blob/main/design/mvp/Binary.md#component-definitions
///
/// ```
/// use wenc::{Component, Module, ModuleSection};
///
/// let module = Module::new();
/// let mut component = Component::new();
/// component.section(&ModuleSection(&module));
/// assert_eq!(component.finish(), b"\0asm\x0d\0\x01\0\x01\x08\0asm\x01\0\0\0");
/// ```
#[derive(Clone, Debug, PartialEq, Eq, Hash)]
pub struct ModuleSection<'a>(
    /// The module.
    pub &'a Module,
);

encode! {
    ModuleSection<'_>, section => section.0.as_slice();
}

impl ComponentSection for ModuleSection<'_> {
    fn id(&self) -> u8 {
        ComponentSectionId::CoreModule.into()
    }
}
