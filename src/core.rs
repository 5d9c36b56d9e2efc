//! The parts of core modules that components need.

mod conversions;
mod custom;
mod exports;
mod globals;
mod imports;
mod memories;
mod names;
mod producers;
mod tables;
mod tags;
mod types;
mod types_of;

pub(crate) use custom::in_either;
pub use custom::{CustomSection, RawCustomSection};
pub use exports::ExportKind;
pub use globals::GlobalType;
pub use imports::EntityType;
pub use memories::MemoryType;
pub use names::NameMap;
pub use producers::{ProducersField, ProducersSection};
pub use tables::TableType;
pub use tags::{TagKind, TagType};
pub use types::*;

use crate::component::built;
use crate::encode::{Encode, Foreign, Own, encode};
use crate::error::{Error, or_panic};
use crate::proved::wasm_encoder as proved;
use crate::proved::wenc_base::Verbatim;
use crate::twins::twins;
use alloc::vec::Vec;

/// A section of a core module ([WebAssembly 3.0, binary format, "Sections"][sections]). A type of
/// your own can implement it too.
///
/// [sections]: https://webassembly.github.io/spec/core/binary/modules.html#sections
///
/// ```
/// use wenc::{Encode, Module, Section, SectionId};
///
/// /// A section with the number of data segments.
/// struct DataCount(u32);
///
/// impl Encode for DataCount {
///     fn encode(&self, sink: &mut Vec<u8>) {
///         let mut content = Vec::new();
///         self.0.encode(&mut content);
///         content.as_slice().encode(sink);
///     }
/// }
///
/// impl Section for DataCount {
///     fn id(&self) -> u8 {
///         SectionId::DataCount.into()
///     }
/// }
///
/// let mut module = Module::new();
/// module.section(&DataCount(0));
/// assert_eq!(module.as_slice()[8..], [12, 1, 0]);
/// ```
pub trait Section: Encode {
    /// Returns the section's id.
    fn id(&self) -> u8;

    /// Appends the section with its id to `dst`.
    ///
    /// # Panics
    ///
    /// Panics as [`Encode::encode`] does, with `dst` unchanged.
    fn append_to(&self, dst: &mut Vec<u8>) {
        or_panic(append_section(self, dst));
    }
}

/// Appends a section with its id, or leaves the bytes unchanged. Room for the id is reserved
/// separately, as for a section of a component.
fn append_section<S: Section + ?Sized>(section: &S, dst: &mut Vec<u8>) -> Result<(), Error> {
    let _ = dst.try_reserve(1);
    let own = Own::default();
    let section = Foreign { value: section, own: &own };
    own.append(dst, |sink| proved::Section::append_to(&section, sink))
}

impl<S: Section + ?Sized> proved::Section for Foreign<'_, S> {
    fn id(&self) -> u8 {
        self.value.id()
    }
}

/// The id of a section of a core module, numbered from 0. Only custom sections have a type here;
/// others are a [`RawSection`](crate::RawSection) or your own [`Section`].
#[derive(Clone, Copy, Debug, PartialEq, Eq, PartialOrd, Ord, Hash)]
#[repr(u8)]
pub enum SectionId {
    /// A custom section.
    Custom = proved::SectionId::Custom as u8,
    /// Types.
    Type,
    /// Imports.
    Import,
    /// The types of functions.
    Function,
    /// Tables.
    Table,
    /// Memories.
    Memory,
    /// Globals.
    Global,
    /// Exports.
    Export,
    /// The start function.
    Start,
    /// Element segments.
    Element,
    /// The code of functions.
    Code,
    /// Data segments.
    Data,
    /// The number of data segments.
    DataCount,
    /// Tags.
    Tag,
}

/// Implements what the ids of sections share: the array of all of them, and the conversion of a
/// number.
macro_rules! section_ids {
    ($name:ident, $len:literal: $($id:ident),+) => {
        impl $name {
            /// All ids, in ascending order.
            pub const ALL: [Self; $len] = [$(Self::$id),+];
        }

        impl TryFrom<u8> for $name {
            type Error = $crate::UnknownSectionId;

            #[inline]
            fn try_from(id: u8) -> Result<Self, $crate::UnknownSectionId> {
                let known = Self::ALL.iter().find(|known| u8::from(**known) == id);
                known.copied().ok_or($crate::UnknownSectionId(id))
            }
        }
    };
}

pub(crate) use section_ids;

section_ids! {
    SectionId, 14: Custom, Type, Import, Function, Table, Memory, Global, Export, Start, Element,
    Code, Data, DataCount, Tag
}

impl From<SectionId> for u8 {
    #[inline]
    fn from(id: SectionId) -> u8 {
        id as u8
    }
}

/// A core module that is built section by section, in order (WebAssembly 3.0, binary format,
/// "Modules"). Neither the order nor the sections are checked.
///
/// ```
/// use wenc::{Component, Module, ModuleSection, RawSection, SectionId};
///
/// // one type, of functions without parameters and results
/// let mut module = Module::new();
/// module.section(&RawSection { id: SectionId::Type.into(), data: &[1, 0x60, 0, 0] });
///
/// let mut component = Component::new();
/// component.section(&ModuleSection(&module));
/// assert_eq!(
///     component.finish(),
///     b"\0asm\x0d\0\x01\0\x01\x0e\0asm\x01\0\0\0\x01\x04\x01\x60\0\0",
/// );
/// ```
#[derive(Clone, Debug, PartialEq, Eq, Hash)]
pub struct Module {
    bytes: Vec<u8>,
}

built! {
    Module of Section, "module":
    /// Does what [`new`](Self::new) does, but returns an error instead of panicking.
    ///
    /// # Errors
    ///
    /// [`NoMemory`](crate::Error::NoMemory).
    ///
    /// ```
    /// use wenc::{CustomSection, Module};
    ///
    /// let mut module = Module::try_new()?;
    /// module.try_section(&CustomSection { name: "n".into(), data: b"data".into() })?;
    /// assert_eq!(module.finish(), b"\0asm\x01\0\0\0\0\x06\x01ndata");
    /// # Ok::<(), wenc::Error>(())
    /// ```
}

encode! {
    SectionId, id => Verbatim(&[u8::from(*id)]);
}
