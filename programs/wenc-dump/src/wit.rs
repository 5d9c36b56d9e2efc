//! A component's world, as WIT.

use super::fault::{Fault, Kind};
use std::fmt;
use std::io::{self, Write};
use wenc::scope::Definitions;
use wenc::wit::{WitError, world};

/// The number of bytes that a world may have, and the number for each of its component's.
const SIZE: (usize, usize) = (1 << 20, 16);

/// An output for text, which keeps its first error.
struct Output<'o> {
    out: &'o mut dyn Write,
    error: io::Result<()>,
}

impl fmt::Write for Output<'_> {
    fn write_str(&mut self, text: &str) -> fmt::Result {
        self.out.write_all(text.as_bytes()).map_err(|error| {
            self.error = Err(error);
            fmt::Error
        })
    }
}

/// Prints the world of a component of this many bytes, and calls `on_fault` with each part of it
/// that WIT has no form for.
pub fn print(
    out: &mut dyn Write,
    definitions: &Definitions<'_>,
    len: usize,
    on_fault: &mut dyn FnMut(&Fault),
) -> io::Result<()> {
    let limit = SIZE.0.saturating_add(SIZE.1.saturating_mul(len));
    let mut output = Output { out, error: Ok(()) };
    let tell = &mut |note| on_fault(&Kind::Unwritten(note).into());
    let written = world(definitions, limit, &mut output, tell);
    output.error?;
    if written == Err(WitError::NoMemory) {
        on_fault(&Kind::NoMemory.into());
    }
    out.flush()
}
