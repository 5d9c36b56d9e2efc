//! The Rust that was made of the proved sources.

use std::path::{Path, PathBuf};

/// The folder of what the build script made, or of what was made for the package.
pub fn folder() -> PathBuf {
    match option_env!("OUT_DIR") {
        Some(out) => Path::new(out).join("proved"),
        None => Path::new(env!("CARGO_MANIFEST_DIR")).join("erased"),
    }
}
