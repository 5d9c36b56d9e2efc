//! Sections by their ids and bytes.

use crate::core::in_either;
use crate::encode::encode;
use crate::proved::wasm_encoder as proved;

/// A section given as its id and its bytes after the size ([WebAssembly 3.0, binary format,
/// "Sections"][sections]; [component model, binary format, "Component Definitions"][definitions]).
/// The bytes aren't checked. It can't be encoded with more than 4294967295 bytes.
///
/// [sections]: https://webassembly.github.io/spec/core/binary/modules.html#sections
/// [definitions]: https://github.com/WebAssembly/component-model/blob/main/design/mvp/Binary.md#component-definitions
///
/// ```
/// use wenc::{Component, ComponentSectionId, RawSection};
///
/// // one type, of lists of bytes
/// let mut component = Component::new();
/// component.section(&RawSection {
///     id: ComponentSectionId::Type.into(),
///     data: &[1, 0x70, 0x7d],
/// });
/// assert_eq!(component.as_slice()[8..], [7, 3, 1, 0x70, 0x7d]);
/// ```
#[derive(Clone, Copy, Debug, PartialEq, Eq, Hash)]
pub struct RawSection<'a> {
    /// The id.
    pub id: u8,
    /// The bytes after the size.
    pub data: &'a [u8],
}

impl RawSection<'_> {
    /// Borrows the section for the proved code.
    #[inline]
    fn borrowed(&self) -> proved::RawSection<'_> {
        proved::RawSection { id: self.id, data: self.data }
    }
}

encode! {
    RawSection<'_>, section => section.borrowed();
}

in_either! {
    RawSection<'_>, section => section.borrowed();
}
