//! The proved sources without their contracts. Only the trees are for users: the erased calls rely
//! on the preconditions of their contracts, which nothing checks here.

#[cfg(test)]
pub(crate) mod for_tests;
#[cfg(test)]
pub use crate::shim::hex;
// The published package leaves them out.
#[cfg(all(test, has_tests))]
#[path = "../tests/proved/mod.rs"]
pub(crate) mod tests;

/// The items of `wasm_encoder` that the facade uses, without those that own.
#[cfg(not(any(feature = "tree", test)))]
pub mod wasm_encoder {
    pub use super::wenc_base::*;
    pub use super::wenc_builder::*;
    pub use super::wenc_canon::*;
    pub use super::wenc_parts::*;
    pub use super::wenc_sections::*;
    pub use super::wenc_types::*;
}

// In the repository, the build script erases the sources; the published package has them erased.
#[cfg(in_repository)]
include!(concat!(env!("OUT_DIR"), "/proved/crates.rs"));
#[cfg(not(in_repository))]
include!("../erased/crates.rs");
