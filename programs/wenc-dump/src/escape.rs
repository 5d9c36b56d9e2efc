//! Printing of file names.

use std::ffi::OsStr;
use std::fmt::{self, Display, Write};

/// A file name that is printed on one line: unprintable characters are escaped as in Rust, and
/// backslashes too.
pub struct Escaped<'a>(pub &'a OsStr);

impl Display for Escaped<'_> {
    fn fmt(&self, f: &mut fmt::Formatter<'_>) -> fmt::Result {
        for chunk in self.0.as_encoded_bytes().utf8_chunks() {
            for letter in chunk.valid().chars() {
                match letter {
                    '"' | '\'' => f.write_char(letter)?,
                    _ => write!(f, "{}", letter.escape_debug())?,
                }
            }
            chunk.invalid().iter().try_for_each(|byte| write!(f, "\\x{byte:02x}"))?;
        }
        Ok(())
    }
}
