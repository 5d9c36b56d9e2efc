//! Erases the proved sources in `crates/` to Rust: a file for each of theirs, and `crates.rs`,
//! which declares a module for each crate.
//!
//! It is the build script of the library and of the program `wenc`. Run in the repository as
//!
//! - `erase FOLDER`, it writes the sources that the published package has in place of a build
//!   script;
//! - `erase --code FOLDER`, it writes what it takes for code: the proved sources without their
//!   clauses and ghost items, which `gate/erased` compares with what the prover takes for code.

mod erase;

use std::fs;
use std::path::{Path, PathBuf};

/// The crates that encode, lowest first.
const WRITER: [&str; 6] =
    ["wenc_base", "wenc_parts", "wenc_types", "wenc_canon", "wenc_sections", "wenc_builder"];

/// The crates of the feature `walk`.
const WALK: [&str; 3] = ["wenc_read", "wenc_view", "wenc_list"];

/// The crates of the feature `tree`.
const TREE: [&str; 2] = ["wenc_decode", "wasm_encoder"];

/// The crates of the programs.
const PROGRAMS: [&str; 2] = ["wenc", "rebuild"];

/// The crates that only tests use: proved callers, the examples of the documentation, and types as
/// another crate defines them.
const TESTS: [&str; 4] = ["proved_parts", "proved_lists", "proved_tests", "proved_scripts"];

/// The lints to allow: the sources have checks of their own, not all of their calls are used by the
/// facade, some names are for contracts only, and erasing leaves empty lines and braces.
const ALLOWED: &str = "#[allow(clippy::all, dead_code, missing_docs, unused_braces)]\n\
     #[allow(unused_imports, unused_variables)]\n\
     #[no_implicit_prelude]\n\
     #[cfg_attr(not(test), warn(clippy::disallowed_methods))]\n";

fn main() {
    let words: Vec<String> = std::env::args().skip(1).collect();
    let sources = Path::new("crates");
    match words.iter().map(String::as_str).collect::<Vec<_>>()[..] {
        [] => build(),
        ["--code", folder] => write_code(sources, Path::new(folder)),
        [folder] => erase_all(sources, Path::new(folder)),
        _ => panic!("usage: erase [--code] FOLDER"),
    }
}

/// Runs as a build script.
fn build() {
    let package = PathBuf::from(variable("CARGO_MANIFEST_DIR"));
    // The library's package is the repository, and the others are two folders below.
    let above = if variable("CARGO_PKG_NAME") == "wenc" { 0 } else { 2 };
    let top = package.ancestors().nth(above).expect("the package is in the repository");
    println!("cargo::rerun-if-changed={}", top.join("build").display());
    for name in parts().iter().flat_map(|(names, _)| *names) {
        println!("cargo::rerun-if-changed={}", top.join("crates").join(name).join("src").display());
    }
    println!("cargo::rustc-cfg=in_repository");
    if variable("CARGO_PKG_NAME") == "wenc-script" {
        println!("cargo::rustc-cfg=script");
    } else if top.join("tests/proved").is_dir() {
        println!("cargo::rustc-cfg=has_tests");
    }
    erase_all(&top.join("crates"), &PathBuf::from(variable("OUT_DIR")).join("proved"));
}

/// Returns the crates, each group with the condition under which it is compiled.
fn parts() -> [(&'static [&'static str], &'static str); 5] {
    [
        (&WRITER, ""),
        (&WALK, erase::WALK),
        (&TREE, erase::TREE),
        (&PROGRAMS, "any(script, test)"),
        (&TESTS, "all(test, not(script))"),
    ]
}

/// Makes a file of each source in a folder and its subfolders, given the names of their modules.
fn make(from: &Path, to: &Path, extension: &str, made: &Made<'_>) {
    fs::create_dir_all(to).unwrap_or_else(|error| panic!("{}: {error}", to.display()));
    let entries = fs::read_dir(from);
    for entry in entries.unwrap_or_else(|error| panic!("{}: {error}", from.display())) {
        let path = entry.expect("the folder can be read").path();
        let target = to.join(path.file_name().expect("it has a name"));
        if path.is_dir() {
            make(&path, &target, extension, made);
        } else if path.extension().is_some_and(|extension| extension == "rt") {
            let text = fs::read_to_string(&path);
            let text = text.unwrap_or_else(|error| panic!("{}: {error}", path.display()));
            let module = path.file_stem().and_then(|stem| stem.to_str()).unwrap_or("");
            match made(module, &text) {
                Ok(made) => write(&target.with_extension(extension), &made),
                Err((line, why)) => panic!("{}:{line}: {why}", path.display()),
            }
        }
    }
}

/// Returns what a module with this name and text becomes.
type Made<'a> = dyn Fn(&str, &str) -> Result<String, erase::Refused> + 'a;

/// Writes the code of all crates of a folder into another folder.
fn write_code(sources: &Path, out: &Path) {
    for name in parts().iter().flat_map(|(names, _)| *names) {
        let (from, to) = (sources.join(name).join("src"), out.join(name).join("src"));
        make(&from, &to, "rt", &|_, text| erase::without_ghosts(text));
    }
}

/// Erases all crates of a folder into another folder.
fn erase_all(sources: &Path, out: &Path) {
    let parts = parts();
    let _ = fs::remove_dir_all(out);
    let mut declared = String::new();
    for (names, condition) in parts {
        // The items of other crates need no condition beside that of the crate.
        let is_parted = ["", erase::WALK].contains(&condition);
        for name in names {
            let source = sources.join(name).join("src");
            make(&source, &out.join(name), "rs", &|module, text| {
                let rust = erase::erase(name, text)?;
                let is_parted = is_parted && !erase::is_owned(module);
                if is_parted { erase::with_conditions(&rust) } else { Ok(rust) }
            });
            let root = if source.join("lib.rt").exists() { "lib.rs" } else { "main.rs" };
            let path = format!("#[path = \"{name}/{root}\"]\n");
            if !condition.is_empty() {
                declared += &format!("#[cfg({condition})]\n");
            }
            declared += &format!("{ALLOWED}{path}pub mod {name};\n");
        }
    }
    write(&out.join("crates.rs"), &declared);
}

fn variable(name: &str) -> String {
    std::env::var(name).unwrap_or_else(|_| panic!("cargo sets {name}"))
}

fn write(path: &Path, text: &str) {
    fs::write(path, text).unwrap_or_else(|error| panic!("{}: {error}", path.display()));
}
