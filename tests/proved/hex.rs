//! Hexadecimal digits, as the tests compare them.

use crate::proved::hex::decode;
use crate::proved::tests::refusing::unplanned;
use crate::shim::alloc::Global;
use std::string::String;
use std::{format, vec::Vec};

/// The digits of these bytes.
pub fn digits(bytes: &[u8]) -> String {
    bytes.iter().map(|byte| format!("{byte:02x}")).collect()
}

/// The bytes with these digits.
pub fn bytes(digits: &str) -> Vec<u8> {
    unplanned(|| decode(Global, digits)).unwrap()
}
