//! The program `wenc`, and `rebuild`, over the proved calls.
#![forbid(unsafe_code)]

extern crate alloc;

mod proved;
#[path = "../../../src/shim/mod.rs"]
#[allow(dead_code, unused_imports, unused_macros)]
mod shim;

use proved::wenc::failure::Failure;
use shim::alloc::{AllocError, Global};
use shim::process::HostRuntime;
use shim::vec::VecUsing;
use std::ffi::OsString;
use std::io::{Read, Write};
use std::process::ExitCode;

/// Returns the arguments without the program's name. Fails if there are any and an allocation
/// fails, or if one of them, or the program's name, isn't UTF-8.
fn arguments(all: impl Iterator<Item = OsString>) -> Result<Vec<String>, Failure> {
    let mut arguments = Vec::new();
    let mut all = all.peekable();
    let program = all.next();
    if all.peek().is_none() {
        return Ok(arguments);
    }
    for (at, argument) in program.into_iter().chain(all).enumerate() {
        let argument = argument.into_string().map_err(|_| Failure::Arguments)?;
        if at > 0 {
            arguments.push_using(argument).map_err(|_| Failure::from(AllocError))?;
        }
    }
    Ok(arguments)
}

/// Runs `wenc` with these arguments, of which the first is the program's name, and returns the exit
/// status.
pub fn wenc(
    arguments_with_name: impl Iterator<Item = OsString>,
    input: &mut impl Read,
    out: &mut impl Write,
    err: &mut impl Write,
) -> u8 {
    match arguments(arguments_with_name) {
        Ok(args) => proved::wenc::run(Global, &args, input, out, err),
        Err(failure) => proved::wenc::program::report(Global, err, failure),
    }
}

/// Builds the component on standard input again, and prints the results.
pub fn rebuild() -> ExitCode {
    proved::rebuild::main(HostRuntime)
}
