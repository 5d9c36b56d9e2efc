//! Real components: those of another linker are read and built again, and those of this crate are
//! passed to that linker, which decodes and validates them.
//!
//! `corpus/wasm` has components that `wasm-component-ld` of Rust's toolchain made, of the worlds in
//! `corpus/wit` and the C in `corpus/c`; `corpus/make` makes them once more, with the objects in
//! `corpus/o`. For what stands here no toolchain is needed. Where `rustc` has such a linker, the
//! tests of worlds, features, random components, examples and documentation call it; where it has
//! none they say that they were left out.

mod debug_names;
mod definitions;
mod docs;
mod encoded;
mod examples;
mod faults_of_scopes;
mod features;
mod indices;
mod interfaces;
mod iterators;
mod random;
mod rebuilt;
mod shown;
mod toolchain;
mod upstream;
mod valid;
mod worlds;

use wenc_calls::{corpus, hex, side_by_side};
