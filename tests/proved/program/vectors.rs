//! Scripts and their expected output, which was made with the Rust crate `wasm-encoder` 0.263.0.

#[path = "vectors/bad.rs"]
pub mod bad;
#[path = "vectors/edges.rs"]
mod edges;
#[path = "vectors/long.rs"]
mod long;
#[path = "vectors/short.rs"]
mod short;
#[path = "vectors/words.rs"]
pub mod words;

/// Scripts, each with the status and the standard output of its run.
macro_rules! vectors {
    ($($script:literal => $status:literal $out:literal;)*) => {
        &[$(Vector { status: $status, script: $script, out: $out }),*]
    };
}

use vectors;

/// A script, and the status and the standard output of its run.
pub struct Vector {
    pub status: u8,
    pub script: &'static [u8],
    pub out: &'static [u8],
}

/// Those whose lines can all be parsed.
pub fn all() -> impl Iterator<Item = &'static Vector> {
    [edges::VECTORS, short::VECTORS, long::VECTORS, words::VECTORS].into_iter().flatten()
}
