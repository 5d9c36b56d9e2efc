//! Large and deep components: they are read in linear time and memory, and deep types fit in the
//! stack that the documentation states. These tests are optimized: they run longer than that takes,
//! and the stack is that of optimized code.
#![cfg(all(feature = "scope", feature = "tree"))]
#![allow(unsafe_code, reason = "a global allocator is unsafe")]

#[cfg(not(target_family = "wasm"))]
mod deep_types;
mod definitions;
mod linear;
#[allow(dead_code, reason = "some are for others")]
#[path = "../common/refuse.rs"]
mod refuse;
