//! Components in components.

use crate::encode::encode;
use crate::{Component, ComponentSection, ComponentSectionId};

/// A section that is a nested component ([component model, binary format, "Component
/// Definitions"][definitions]). It can't be encoded if the component has more than 4294967295
/// bytes. To nest a component's bytes, use [`NestedComponentBytes`].
///
/// [definitions]: https://github.com/WebAssembly/component-model/blob/main/design/mvp/Binary.md#component-definitions
///
/// ```
/// use wenc::{Component, NestedComponentSection};
///
/// let inner = Component::new();
/// let mut outer = Component::new();
/// outer.section(&NestedComponentSection(&inner));
/// assert_eq!(outer.finish(), b"\0asm\x0d\0\x01\0\x04\x08\0asm\x0d\0\x01\0");
/// ```
#[derive(Clone, Debug, PartialEq, Eq, Hash)]
pub struct NestedComponentSection<'a>(
    /// The component.
    pub &'a Component,
);

encode! {
    NestedComponentSection<'_>, section => section.0.as_slice();
}

impl ComponentSection for NestedComponentSection<'_> {
    fn id(&self) -> u8 {
        ComponentSectionId::Component.into()
    }
}

/// A section that is a nested component, of the component's bytes (component model, binary format,
/// "Component Definitions"). They aren't checked. It can't be encoded if there are more than
/// 4294967295.
///
/// ```
/// use wenc::{Component, NestedComponentBytes};
///
/// let inner = Component::new().finish();
/// let mut outer = Component::new();
/// outer.section(&NestedComponentBytes(&inner));
/// assert_eq!(outer.finish(), b"\0asm\x0d\0\x01\0\x04\x08\0asm\x0d\0\x01\0");
/// ```
#[derive(Clone, Copy, Debug, PartialEq, Eq, Hash)]
pub struct NestedComponentBytes<'a>(
    /// The bytes of the component.
    pub &'a [u8],
);

encode! {
    NestedComponentBytes<'_>, section => section.0;
}

impl ComponentSection for NestedComponentBytes<'_> {
    fn id(&self) -> u8 {
        ComponentSectionId::Component.into()
    }
}
