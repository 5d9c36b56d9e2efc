//! Components and their sections.

mod aliases;
mod builder;
mod canonicals;
mod components;
mod exports;
mod imports;
mod instances;
mod modules;
mod names;
mod start;
mod types;

pub use aliases::*;
pub use builder::*;
pub use canonicals::{CanonicalFunctionSection, CanonicalOption};
pub use components::*;
pub use exports::*;
pub use imports::*;
pub use instances::*;
pub use modules::*;
pub use names::*;
pub use start::*;
pub use types::*;

use crate::encode::{Encode, Foreign, Own};
use crate::error::{Error, or_panic};
use crate::proved::wasm_encoder as proved;
use crate::twins::twins;
use alloc::vec::Vec;
use core::fmt;

pub use proved::ComponentSectionId;

/// A section of a component ([component model, binary format, "Component
/// Definitions"][definitions]). Your own types can implement it too.
///
/// [definitions]: https://github.com/WebAssembly/component-model/blob/main/design/mvp/Binary.md#component-definitions
///
/// ```
/// use wenc::{Component, ComponentSection, ComponentSectionId, Encode};
///
/// /// A custom section with the name `x`.
/// struct Marked(Vec<u8>);
///
/// impl Encode for Marked {
///     fn encode(&self, sink: &mut Vec<u8>) {
///         (2 + self.0.len()).encode(sink);
///         "x".encode(sink);
///         sink.extend_from_slice(&self.0);
///     }
/// }
///
/// impl ComponentSection for Marked {
///     fn id(&self) -> u8 {
///         ComponentSectionId::CoreCustom.into()
///     }
/// }
///
/// let mut component = Component::new();
/// component.section(&Marked(vec![7]));
/// assert_eq!(component.as_slice()[8..], [0, 3, 1, b'x', 7]);
/// ```
pub trait ComponentSection: Encode {
    /// Returns the section's id.
    fn id(&self) -> u8;

    /// Appends the section with its id to `dst`.
    ///
    /// # Panics
    ///
    /// Panics as [`Encode::encode`] does, with `dst` unchanged.
    fn append_to_component(&self, dst: &mut Vec<u8>) {
        or_panic(append_section(self, dst));
    }
}

/// Appends a section with its id, or leaves the bytes unchanged. Room for the id is reserved
/// separately: if that fails, the section is written first and then moved.
fn append_section<S: ComponentSection + ?Sized>(
    section: &S,
    dst: &mut Vec<u8>,
) -> Result<(), Error> {
    let _ = dst.try_reserve(1);
    let own = Own::default();
    let section = Foreign { value: section, own: &own };
    own.append(dst, |sink| proved::ComponentSection::append_to_component(&section, sink))
}

impl<S: ComponentSection + ?Sized> proved::ComponentSection for Foreign<'_, S> {
    fn id(&self) -> u8 {
        self.value.id()
    }
}

/// Implements the calls of what is built section by section, given the docs of `try_new`.
macro_rules! built {
    ($name:ident of $section:ident, $what:literal: $(#[$doc:meta])*) => {
        impl $name {
            #[doc = concat!("The first bytes of every ", $what, ".")]
            pub const HEADER: [u8; 8] = <$crate::proved::wasm_encoder::$name>::HEADER;

            #[doc = concat!("Creates a ", $what, " without sections.")]
            ///
            /// # Panics
            ///
            /// Panics if [`try_new`](Self::try_new) fails.
            #[inline]
            pub fn new() -> Self {
                $crate::error::or_panic(Self::try_new())
            }

            $(#[$doc])*
            #[inline]
            pub fn try_new() -> Result<Self, $crate::Error> {
                Ok(Self { bytes: $crate::encode::copied(Self::HEADER)? })
            }

            twins! {
                /// Appends a section. A section of your own fails as its
                /// [`try_encode`](crate::Encode::try_encode) does.
                fn section | try_section(&mut self, section: &impl $section) -> &mut Self {
                    append_section(section, &mut self.bytes)?;
                    Ok(self)
                }
            }

            /// Returns the bytes so far.
            pub fn as_slice(&self) -> &[u8] {
                &self.bytes
            }

            #[doc = concat!("Returns the bytes of the ", $what, ".")]
            pub fn finish(self) -> alloc::vec::Vec<u8> {
                self.bytes
            }
        }

        impl Default for $name {
            #[inline]
            fn default() -> Self {
                Self::new()
            }
        }
    };
}

pub(crate) use built;

/// A component that is built section by section, in order. Neither the order nor the sections are
/// checked.
///
/// ```
/// use wenc::{Component, ComponentImportSection, ComponentTypeRef, ComponentTypeSection};
///
/// let mut types = ComponentTypeSection::new();
/// types.function().params([] as [(&str, wenc::ComponentValType); 0]).result(None);
/// let mut imports = ComponentImportSection::new();
/// imports.import("f", ComponentTypeRef::Func(0));
///
/// let mut component = Component::new();
/// component.section(&types).section(&imports);
/// assert_eq!(
///     component.finish(),
///     b"\0asm\x0d\0\x01\0\x07\x05\x01\x40\0\x01\0\x0a\x06\x01\0\x01f\x01\0",
/// );
/// ```
#[derive(Clone, Debug, PartialEq, Eq, Hash)]
pub struct Component {
    bytes: Vec<u8>,
}

built! {
    Component of ComponentSection, "component":
    /// Does what [`new`](Self::new) does, but returns an error instead of panicking.
    ///
    /// # Errors
    ///
    /// [`NoMemory`](crate::Error::NoMemory).
    ///
    /// ```
    /// use wenc::{Component, CustomSection};
    ///
    /// let mut component = Component::try_new()?;
    /// component.try_section(&CustomSection { name: "n".into(), data: b"data".into() })?;
    /// assert_eq!(component.finish(), b"\0asm\x0d\0\x01\0\0\x06\x01ndata");
    /// # Ok::<(), wenc::Error>(())
    /// ```
}

/// Implements the methods of sections with a count, their ids, and comparison by content.
macro_rules! sections {
    ($($name:ident)*) => {
        $(impl $name {
            /// Returns the number of items, including an unfinished one.
            pub fn len(&self) -> u32 {
                self.0.len()
            }

            /// Returns `true` if the section has no items.
            pub fn is_empty(&self) -> bool {
                self.0.is_empty()
            }
        }

        impl $crate::ComponentSection for $name {
            fn id(&self) -> u8 {
                $crate::proved::wasm_encoder::ComponentSection::id(&self.0)
            }
        }

        $crate::eq_by_bytes::eq_by_bytes! { $name })*
    };
}

pub(crate) use sections;

crate::encode::encode! {
    ComponentSectionId, value => *value;
}

crate::core::section_ids! {
    ComponentSectionId, 12: CoreCustom, CoreModule, CoreInstance, CoreType, Component, Instance,
    Alias, Type, CanonicalFunction, Start, Import, Export
}

/// The error of converting a `u8` that isn't a section's id to a [`ComponentSectionId`] or a
/// [`SectionId`](crate::SectionId).
///
/// It doesn't convert into [`Error`](crate::Error), which says what can't be written.
///
/// ```
/// use wenc::{ComponentSectionId, UnknownSectionId};
///
/// assert_eq!(ComponentSectionId::try_from(11), Ok(ComponentSectionId::Export));
/// assert_eq!(ComponentSectionId::try_from(12), Err(UnknownSectionId(12)));
/// ```
#[derive(Clone, Copy, Debug, PartialEq, Eq, Hash)]
pub struct UnknownSectionId(
    /// The id.
    pub u8,
);

impl fmt::Display for UnknownSectionId {
    #[inline]
    fn fmt(&self, f: &mut fmt::Formatter<'_>) -> fmt::Result {
        write!(f, "no section has the id {}", self.0)
    }
}

impl core::error::Error for UnknownSectionId {}
