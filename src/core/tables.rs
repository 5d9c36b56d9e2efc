//! Tables.

use super::RefType;

/// The type of a table ([WebAssembly 3.0, binary format, "Table Types"][types]).
///
/// [types]: https://webassembly.github.io/spec/core/binary/types.html#table-types
#[derive(Clone, Copy, Debug, PartialEq, Eq, Hash)]
pub struct TableType {
    /// The type of its elements.
    pub element_type: RefType,
    /// Whether its indices have 64 bits.
    pub table64: bool,
    /// The initial number of elements.
    pub minimum: u64,
    /// The maximum number of elements, if there is one.
    pub maximum: Option<u64>,
    /// Whether threads share it, which isn't supported.
    pub shared: bool,
}
