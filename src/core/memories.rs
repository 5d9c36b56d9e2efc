//! Memories.

/// The type of a memory ([WebAssembly 3.0, binary format, "Memory Types"][types]). A shared memory
/// isn't in that standard; it is encoded as in the threads proposal.
///
/// [types]: https://webassembly.github.io/spec/core/binary/types.html#memory-types
#[derive(Clone, Copy, Debug, PartialEq, Eq, Hash)]
pub struct MemoryType {
    /// The initial number of pages.
    pub minimum: u64,
    /// The maximum number of pages, if there is one.
    pub maximum: Option<u64>,
    /// Whether its addresses have 64 bits.
    pub memory64: bool,
    /// Whether threads share it.
    pub shared: bool,
    /// The base 2 logarithm of the page size in bytes, if it isn't the standard's 65536. `Some`
    /// isn't supported, not even 16.
    pub page_size_log2: Option<u32>,
}
