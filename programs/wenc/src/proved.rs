//! The proved sources of the programs, as the build script erases them.

pub use crate::shim::hex;

include!(concat!(env!("OUT_DIR"), "/proved/crates.rs"));
