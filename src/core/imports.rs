//! Imports of core modules.

use super::{GlobalType, MemoryType, TableType, TagType};

/// The type of an import or an export of a core module ([WebAssembly 3.0, binary format, "External
/// Types"][types]).
///
/// [types]: https://webassembly.github.io/spec/core/binary/types.html#external-types
///
/// ```
/// use wenc::{Encode, EntityType, MemoryType};
///
/// let ty = MemoryType {
///     minimum: 1,
///     maximum: Some(2),
///     memory64: false,
///     shared: false,
///     page_size_log2: None,
/// };
/// let mut sink = Vec::new();
/// EntityType::from(ty).encode(&mut sink);
/// assert_eq!(sink, [0x02, 0x01, 0x01, 0x02]);
/// ```
#[derive(Clone, Copy, Debug, PartialEq, Eq, Hash)]
pub enum EntityType {
    /// A function of the core type with this index.
    Function(u32),
    /// A table.
    Table(TableType),
    /// A memory.
    Memory(MemoryType),
    /// A global.
    Global(GlobalType),
    /// A tag.
    Tag(TagType),
    /// A function of exactly the core type with this index, which isn't supported.
    FunctionExact(u32),
}

macro_rules! entities {
    ($($variant:ident of $ty:ident;)*) => {
        $(impl From<$ty> for EntityType {
            #[inline]
            fn from(ty: $ty) -> Self {
                Self::$variant(ty)
            }
        })*
    };
}

entities! {
    Table of TableType;
    Memory of MemoryType;
    Global of GlobalType;
    Tag of TagType;
}
