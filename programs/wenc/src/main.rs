//! The program `wenc`, which runs a script of commands on standard input, and prints their results
//! and the component that they build; or it lists a component's sections. docs/SCRIPTS.md describes
//! both.

use std::io::{self, Write};
use std::process::ExitCode;

/// Returns standard output, as a file if possible: std's `Stdout` searches everything that is
/// written for line ends.
fn output() -> Box<dyn Write> {
    #[cfg(unix)]
    if let Ok(descriptor) = std::os::fd::AsFd::as_fd(&io::stdout()).try_clone_to_owned() {
        return Box::new(std::fs::File::from(descriptor));
    }
    Box::new(io::stdout())
}

fn main() -> ExitCode {
    let (mut input, mut out, mut err) = (io::stdin(), output(), io::stderr());
    ExitCode::from(wenc_script::wenc(std::env::args_os(), &mut input, &mut out, &mut err))
}
