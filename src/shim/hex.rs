//! The part of the kit's crate `hex` that the sources use.

use crate::shim::alloc::{AllocError, Global};
use crate::shim::vec::{Vec, VecUsing};

/// Why hexadecimal can't be converted.
#[derive(Clone, Copy, Debug, PartialEq, Eq)]
pub enum FromHexError {
    /// A character isn't a hexadecimal digit.
    InvalidHexCharacter,
    /// The number of digits is odd.
    OddLength,
    /// The output doesn't have exactly two digits for each byte.
    InvalidStringLength,
    /// An allocation failed.
    OutOfMemory,
}

impl From<AllocError> for FromHexError {
    fn from(_error: AllocError) -> FromHexError {
        FromHexError::OutOfMemory
    }
}

/// Decodes hexadecimal digits.
pub fn decode(alloc: Global, digits: impl AsRef<[u8]>) -> Result<Vec<u8>, FromHexError> {
    let digits = digits.as_ref();
    let value = |digit: u8| char::from(digit).to_digit(16).ok_or(FromHexError::InvalidHexCharacter);
    if digits.len() % 2 != 0 {
        return Err(FromHexError::OddLength);
    }
    let mut bytes = Vec::with_capacity_using(alloc, digits.len() / 2)?;
    for pair in digits.chunks_exact(2) {
        let byte = value(pair[0])? * 16 + value(pair[1])?;
        bytes.push(byte as u8);
    }
    Ok(bytes)
}

/// Writes bytes in hexadecimal to `output`, which must have exactly two bytes for each.
pub fn encode_to_slice(input: impl AsRef<[u8]>, output: &mut [u8]) -> Result<(), FromHexError> {
    let input = input.as_ref();
    if output.len() % 2 != 0 || output.len() / 2 != input.len() {
        return Err(FromHexError::InvalidStringLength);
    }
    // Computed without a table, so that the compiler can vectorize it.
    let digit = |number: u8| if number < 10 { b'0' + number } else { b'a' - 10 + number };
    for (pair, byte) in output.chunks_exact_mut(2).zip(input) {
        pair[0] = digit(byte >> 4);
        pair[1] = digit(byte & 0x0f);
    }
    Ok(())
}
