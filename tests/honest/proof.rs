//! `PROOF` tells of the sources that the crate is made of: their digests are those that `sha256sum`
//! gives.

use crate::erased;
use std::collections::{BTreeMap, HashSet};
use std::fs;
use std::io::Write;
use std::path::{Path, PathBuf};
use std::process::{Command, Stdio};

/// The digests that `PROOF` has, by the folder.
fn told() -> BTreeMap<&'static str, &'static str> {
    wenc::PROOF
        .lines()
        .filter_map(|line| line.split_once("  "))
        .map(|(sum, at)| (at, sum))
        .collect()
}

/// The files below a folder, by their paths from the one around it.
pub fn gather(crate_folder: &Path, at: &str, found: &mut BTreeMap<String, Vec<u8>>) {
    for entry in fs::read_dir(crate_folder.join(at)).expect("the folder can be read") {
        let entry = entry.expect("an entry");
        let path = format!("{at}/{}", entry.file_name().to_str().expect("a name in UTF-8"));
        if entry.path().is_dir() {
            gather(crate_folder, &path, found);
        } else {
            found.insert(path, fs::read(entry.path()).expect("the file can be read"));
        }
    }
}

/// What `sha256sum` prints of these files of a folder, or of this text if there are none.
fn sha256sum<'a>(folder: &Path, files: impl Iterator<Item = &'a String>, text: &[u8]) -> String {
    let mut sums = Command::new("sha256sum");
    sums.args(files).current_dir(folder).stdin(Stdio::piped()).stdout(Stdio::piped());
    let mut sums = sums.spawn().expect("`sha256sum` is here");
    sums.stdin.take().expect("a pipe").write_all(text).expect("it is read");
    let output = sums.wait_with_output().expect("it ends");
    assert!(output.status.success());
    String::from_utf8(output.stdout).expect("a text")
}

/// The digest of a text.
fn digest(text: &[u8]) -> String {
    sha256sum(Path::new("."), [].into_iter(), text)[..64].to_owned()
}

/// Each folder of proved sources that is here, with its files: in the repository all, in a package
/// those of `src`.
fn folders() -> BTreeMap<String, BTreeMap<String, Vec<u8>>> {
    let crates = Path::new(env!("CARGO_MANIFEST_DIR")).join("crates");
    let mut found = BTreeMap::new();
    for entry in fs::read_dir(&crates).expect("the folder can be read") {
        let folder = entry.expect("an entry").path();
        let name = folder.file_name().and_then(|name| name.to_str()).expect("a name");
        for part in ["src", "specs", "proofs", "must-fail"] {
            if folder.join(part).is_dir() {
                let files = found.entry(format!("{name}/{part}")).or_default();
                gather(&folder, part, files);
            }
        }
    }
    found
}

/// The folder of the crate whose `src`, `specs`, `proofs` or `must-fail` this is.
fn crate_of(part: &str) -> PathBuf {
    let part = Path::new(env!("CARGO_MANIFEST_DIR")).join("crates").join(part);
    part.parent().expect("the crate's").to_owned()
}

#[test]
#[cfg_attr(target_family = "wasm", ignore = "there are no other programs")]
fn sources_are_the_proved_ones() {
    let told = told();
    let folders = folders();
    for (at, files) in &folders {
        let wanted = told.get(at.as_str()).unwrap_or_else(|| panic!("PROOF has no {at}"));
        let sums = sha256sum(&crate_of(at), files.keys(), b"");
        assert_eq!(digest(sums.as_bytes()), *wanted, "{at} was changed after it was proved");
    }
    // Of each crate that Rust was made of there was a digest.
    let mut made = 0;
    for entry in fs::read_dir(erased::folder()).expect("the Rust is there") {
        let rust = entry.expect("an entry").path();
        if rust.is_dir() {
            let name = rust.file_name().and_then(|name| name.to_str()).expect("a name");
            assert!(folders.contains_key(&format!("{name}/src")), "no sources of {name}");
            made += 1;
        }
    }
    assert!(made >= 13, "only {made} crates");
}

#[test]
#[cfg_attr(target_family = "wasm", ignore = "there are no other programs")]
fn a_changed_source_has_another_digest() {
    let at = "wenc_base/src";
    let files = folders().remove(at).expect("the sources of wenc_base");
    let sums = sha256sum(&crate_of(at), files.keys(), b"");
    for (line, (path, bytes)) in sums.lines().zip(&files) {
        let changed = digest(&[bytes, &b" "[..]].concat());
        for other in [format!("{changed}  {path}"), format!("{line}_")] {
            let sums = sums.replace(line, &other);
            assert_ne!(digest(sums.as_bytes()), told()[at], "{path}");
        }
    }
}

fn public_functions(text: &[u8]) -> usize {
    let text = std::str::from_utf8(text).expect("a source is UTF-8");
    text.lines().filter(|line| line.trim_start().starts_with("pub fn ")).count()
}

#[test]
fn numbers_are_those_of_the_files() {
    let number = |before: &str| {
        let line = wenc::PROOF.lines().find_map(|line| line.strip_prefix(before));
        line.and_then(|number| number.parse::<usize>().ok()).unwrap_or_else(|| panic!("{before}?"))
    };
    assert!(wenc::PROOF.starts_with("logic: "));
    assert!(wenc::PROOF.lines().any(|line| line.starts_with("kits: rattle-kit-")));
    // Private functions, those of traits and derived ones are proved too.
    let sources = folders().into_iter().filter(|(at, _)| at.ends_with("/src"));
    let public =
        sources.flat_map(|(_, files)| files.into_values()).map(|text| public_functions(&text));
    let public = public.sum::<usize>();
    assert!(public > 0 && number("functions proved: ") > public, "{public} public functions");
    // In a package there are no edits.
    let edits = folders().into_iter().filter(|(at, _)| at.ends_with("/must-fail"));
    let edits = edits.map(|(_, files)| files.len()).sum::<usize>();
    assert!(edits == 0 || edits == number("edits refused: "), "{edits} edits");
}

/// The definitions that the guide quotes are lines of `specs`.
#[test]
fn quoted_definitions_are_in_the_sources() {
    let folder = Path::new(env!("CARGO_MANIFEST_DIR"));
    let specs = folders().into_iter().filter(|(at, _)| at.ends_with("/specs"));
    let specs = specs.flat_map(|(_, files)| files.into_values()).collect::<Vec<_>>();
    if specs.is_empty() {
        // A package has none.
        return assert!(!folder.join("crates/wenc_base/specs").exists());
    }
    let guide = folder.join("docs/DEFINITIONS.md");
    let guide = fs::read_to_string(guide).expect("the guide can be read");
    let specs = specs.iter().map(|text| std::str::from_utf8(text).expect("a source is UTF-8"));
    let lines = specs.flat_map(str::lines).map(str::trim).collect::<HashSet<_>>();
    let mut quoted = 0;
    for line in guide.lines().filter_map(|line| line.strip_prefix("    ")) {
        assert!(lines.contains(line), "{line}");
        quoted += 1;
    }
    assert!(quoted > 0);
}

/// The callers that the pages of the crates show are those of the crates of proved facts.
#[test]
fn callers_on_the_pages_are_proved_ones() {
    let crates = Path::new(env!("CARGO_MANIFEST_DIR")).join("crates");
    let mut folders = folders();
    let sources = ["proved_parts", "proved_lists", "proved_tests", "proved_scripts"]
        .map(|name| folders.remove(&format!("{name}/src")).expect("the sources of facts"));
    let mut shown = 0;
    for entry in fs::read_dir(&crates).expect("the folder can be read") {
        let page = entry.expect("an entry").path().join("CALLING.md");
        // Programs have none.
        let Ok(page) = fs::read_to_string(page) else { continue };
        for block in page.split("```rust\n").skip(1) {
            let (code, _) = block.split_once("```").expect("the block ends");
            let is_in = |text: &Vec<u8>| String::from_utf8_lossy(text).contains(code);
            assert!(sources.iter().flat_map(BTreeMap::values).any(is_in), "{code}");
            shown += 1;
        }
    }
    assert_eq!(shown, 10);
}
