//! The library for C: `libwenc.a` and `libwenc.so`.
//!
//! In a profile that aborts on panic, as `--profile c`, it needs only C's allocator and `abort`. In
//! any other it links Rust's `std`.
#![no_std]

#[cfg(not(panic = "abort"))]
extern crate std;
extern crate wenc_capi;

#[cfg(panic = "abort")]
mod memory;
