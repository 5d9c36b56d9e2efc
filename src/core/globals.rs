//! Globals.

use super::ValType;

/// The type of a global ([WebAssembly 3.0, binary format, "Global Types"][types]).
///
/// [types]: https://webassembly.github.io/spec/core/binary/types.html#global-types
#[derive(Clone, Copy, Debug, PartialEq, Eq, Hash)]
pub struct GlobalType {
    /// The type of its value.
    pub val_type: ValType,
    /// Whether it is mutable.
    pub mutable: bool,
    /// Whether threads share it, which isn't supported.
    pub shared: bool,
}
