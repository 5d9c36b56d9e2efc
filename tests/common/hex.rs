//! Bytes in hexadecimal.

/// The bytes with these digits, which spaces may separate.
pub fn bytes(digits: &str) -> Vec<u8> {
    let digits = digits.replace(' ', "");
    let byte = |at| u8::from_str_radix(&digits[at..at + 2], 16).expect("two digits");
    (0..digits.len()).step_by(2).map(byte).collect()
}
