//! What bytes without the expected header are.

use crate::proved::wenc_list::{Sections, behind_module_header};
use crate::{Component, ComponentSectionId};
use core::fmt;

/// The kind of bytes that don't begin with the header of a component, or of a core module, by the
/// first of them.
///
/// Needs the feature `walk`.
///
/// ```
/// use wenc::{Cause, CoreSections, Found, Sections};
///
/// let module = b"\0asm\x01\0\0\0";
/// let error = Sections::new(module).unwrap_err();
/// assert_eq!(error.cause, Cause::Header(Found::CoreModule));
/// assert_eq!(error.to_string(), "no component's header at 0x0: found a core module");
///
/// let error = CoreSections::new(b"(module)").unwrap_err();
/// assert_eq!(error.cause, Cause::Header(Found::Text));
/// assert_eq!(error.to_string(), "no core module's header at 0x0: found WebAssembly text");
/// ```
#[derive(Clone, Copy, Debug, PartialEq, Eq, Hash)]
#[non_exhaustive]
pub enum Found {
    /// No bytes.
    Nothing,
    /// A core module, where a component was expected.
    CoreModule,
    /// A component, where a core module was expected.
    Component,
    /// A core module or a component of this other version of the binary format.
    Version(u32),
    /// WebAssembly text, which begins with a parenthesis or a comment.
    Text,
    /// None of these, with the first bytes.
    Other(First),
}

/// The first bytes, at most 8, of what isn't known.
///
/// Needs the feature `walk`.
#[derive(Clone, Copy, Debug, PartialEq, Eq, Hash)]
pub struct First {
    bytes: [u8; 8],
    len: u8,
}

impl First {
    fn of(bytes: &[u8]) -> Self {
        let mut first = Self { bytes: [0; 8], len: bytes.len().min(8) as u8 };
        first.bytes.iter_mut().zip(bytes).for_each(|(to, from)| *to = *from);
        first
    }

    /// Returns the bytes.
    pub fn as_slice(&self) -> &[u8] {
        &self.bytes[..self.len.into()]
    }
}

/// Writes the bytes in hexadecimal.
impl fmt::Display for First {
    #[inline]
    fn fmt(&self, f: &mut fmt::Formatter<'_>) -> fmt::Result {
        let mut bytes = self.as_slice().iter().enumerate();
        bytes.try_for_each(|(at, byte)| write!(f, "{}{byte:02x}", if at == 0 { "" } else { " " }))
    }
}

impl Found {
    /// Returns what these bytes are.
    pub(crate) fn of(bytes: &[u8]) -> Self {
        // The header without the version.
        let [magic @ .., _, _, _, _] = Component::HEADER;
        let text = bytes.trim_ascii_start();
        if bytes.is_empty() {
            Self::Nothing
        } else if behind_module_header(bytes).is_some() {
            Self::CoreModule
        } else if Sections::new(bytes).is_ok() {
            Self::Component
        } else if let (true, Some(&[_, _, _, _, a, b, c, d])) =
            (bytes.starts_with(&magic), bytes.first_chunk())
        {
            Self::Version(u32::from_le_bytes([a, b, c, d]))
        } else if text.starts_with(b"(") || text.starts_with(b";;") {
            Self::Text
        } else {
            Self::Other(First::of(bytes))
        }
    }
}

impl fmt::Display for Found {
    #[inline]
    fn fmt(&self, f: &mut fmt::Formatter<'_>) -> fmt::Result {
        f.write_str(match self {
            Self::Nothing => "nothing",
            Self::CoreModule => "a core module",
            Self::Component => "a component",
            Self::Text => "WebAssembly text",
            Self::Version(version) => {
                return write!(f, "another version of the format: version {version:#x}");
            }
            Self::Other(first) => return write!(f, "other bytes: {first}"),
        })
    }
}

/// Returns the words for an item of a section.
#[inline]
pub(super) fn item_of(section: ComponentSectionId) -> &'static str {
    match section {
        ComponentSectionId::CoreCustom => "a custom section",
        ComponentSectionId::CoreModule => "a core module",
        ComponentSectionId::CoreInstance => "a core instance",
        ComponentSectionId::CoreType => "a core type",
        ComponentSectionId::Component => "a component",
        ComponentSectionId::Instance => "an instance",
        ComponentSectionId::Alias => "an alias",
        ComponentSectionId::Type => "a type",
        ComponentSectionId::CanonicalFunction => "a canonical function",
        ComponentSectionId::Start => "a start function",
        ComponentSectionId::Import => "an import",
        ComponentSectionId::Export => "an export",
    }
}
