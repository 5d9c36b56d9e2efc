//! Tags.

/// The kind of a tag.
#[derive(Clone, Copy, Debug, PartialEq, Eq, Hash)]
pub enum TagKind {
    /// An exception.
    Exception,
}

/// The type of a tag ([WebAssembly 3.0, binary format, "Tag Types"][types]).
///
/// [types]: https://webassembly.github.io/spec/core/binary/types.html#tag-types
#[derive(Clone, Copy, Debug, PartialEq, Eq, Hash)]
pub struct TagType {
    /// The kind of the tag.
    pub kind: TagKind,
    /// The index of the exception's signature, a core function type.
    pub func_type_idx: u32,
}
