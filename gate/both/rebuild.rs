//! Builds the component on standard input again, as `crates/rebuild/src/main.rt` says.

use std::process::ExitCode;

fn main() -> ExitCode {
    wenc_script::rebuild()
}
