//! The process.

use super::alloc::Global;
pub use std::process::ExitCode;

/// The process, for a program's `main`.
pub struct HostRuntime;

impl HostRuntime {
    /// Returns the allocator.
    pub fn alloc(&self) -> Global {
        Global
    }

    /// Returns the standard input.
    pub fn stdin(&self) -> std::io::Stdin {
        std::io::stdin()
    }

    /// Returns the standard output.
    pub fn stdout(&self) -> std::io::Stdout {
        std::io::stdout()
    }
}
