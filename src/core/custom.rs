//! Custom sections.

use crate::encode::encode;
use crate::proved::wasm_encoder as proved;
use alloc::borrow::Cow;

/// A custom section of a component or a core module ([WebAssembly 3.0, binary format, "Custom
/// Section"][custom]). It can't be encoded if it has more than 4294967295 bytes after its size.
///
/// [custom]: https://webassembly.github.io/spec/core/binary/modules.html#custom-section
///
/// ```
/// use wenc::{Component, CustomSection};
///
/// let mut component = Component::new();
/// component.section(&CustomSection { name: "notes".into(), data: [0x2a].as_slice().into() });
/// assert_eq!(component.finish(), b"\0asm\x0d\0\x01\0\0\x07\x05notes\x2a");
/// ```
#[derive(Clone, Debug, PartialEq, Eq, Hash)]
pub struct CustomSection<'a> {
    /// The name.
    pub name: Cow<'a, str>,
    /// The bytes after the name.
    pub data: Cow<'a, [u8]>,
}

impl CustomSection<'_> {
    /// Borrows the section for the proved code, without allocating.
    #[inline]
    pub(crate) fn borrowed(&self) -> proved::CustomSection<'_> {
        proved::CustomSection { name: &self.name, data: &self.data }
    }
}

/// A custom section given as its bytes after the id: its size, name and data. The bytes aren't
/// checked.
///
/// ```
/// use wenc::{Component, RawCustomSection};
///
/// let mut component = Component::new();
/// component.section(&RawCustomSection(b"\x02\x01x"));
/// assert_eq!(component.finish(), b"\0asm\x0d\0\x01\0\0\x02\x01x");
/// ```
#[derive(Clone, Debug, PartialEq, Eq, Hash)]
pub struct RawCustomSection<'a>(
    /// The bytes.
    pub &'a [u8],
);

impl RawCustomSection<'_> {
    /// Borrows the section for the proved code.
    #[inline]
    fn borrowed(&self) -> proved::RawCustomSection<'_> {
        proved::RawCustomSection(self.0)
    }
}

/// Implements the section traits of core modules and of components, with the ids of the proved
/// code.
macro_rules! in_either {
    ($($name:ty, $section:ident => $proved:expr;)*) => {
        $(impl $crate::Section for $name {
            fn id(&self) -> u8 {
                let $section = self;
                $crate::proved::wasm_encoder::Section::id(&$proved)
            }
        }

        impl $crate::ComponentSection for $name {
            fn id(&self) -> u8 {
                let $section = self;
                $crate::proved::wasm_encoder::ComponentSection::id(&$proved)
            }
        })*
    };
}

pub(crate) use in_either;

encode! {
    CustomSection<'_>, section => section.borrowed();
    RawCustomSection<'_>, section => section.borrowed();
}

in_either! {
    CustomSection<'_>, section => section.borrowed();
    RawCustomSection<'_>, section => section.borrowed();
}
