//! What is printed of the components of the corpus.

use crate::dump;
use crate::json_value::Value;
use std::fs;
use std::path::{Path, PathBuf};
use wenc::tree::Space;
use wenc::{ListedSection, list};

pub fn corpus(of: &str) -> PathBuf {
    Path::new(env!("CARGO_MANIFEST_DIR")).join("../../tests/real/corpus").join(of)
}

/// The FNV-1a hash of 64 bits.
fn digest(bytes: &[u8]) -> u64 {
    let prime = 0x0100_0000_01b3;
    bytes
        .iter()
        .fold(0xcbf2_9ce4_8422_2325, |hash, byte| (hash ^ u64::from(*byte)).wrapping_mul(prime))
}

/// The paths of the components, in order.
pub fn paths() -> Vec<PathBuf> {
    let files = fs::read_dir(corpus("wasm")).expect("the corpus is there");
    let mut paths: Vec<_> = files.map(|file| file.expect("it is there").path()).collect();
    paths.sort_by_key(|path| path.with_extension(""));
    paths
}

/// The bytes of each component.
pub fn components() -> impl Iterator<Item = Vec<u8>> {
    paths().into_iter().map(|path| fs::read(path).expect("it is there"))
}

/// The name of a component, the number of printed lines and their digest, with the messages.
fn line(path: &Path) -> String {
    let name = path.file_stem().expect("it has a name").to_string_lossy();
    let (status, out, err) = dump(&["-x"], &fs::read(path).expect("it is there"));
    let messages = err.lines().filter_map(|line| line.strip_prefix("wenc-dump: -: "));
    let messages: String = messages.map(|message| format!(", {message}")).collect();
    assert_eq!(status, u8::from(!messages.is_empty()), "{name}");
    let lines = out.matches('\n').count();
    format!("{name}: {lines} lines, {:016x}{messages}\n", digest(out.as_bytes()))
}

/// `corpus/dumps.txt` has a line for each component, of its text with all bytes. `DUMPS=write` in
/// the environment writes it again.
#[test]
fn the_corpus() {
    let lines: String = paths().iter().map(|path| line(path)).collect();
    let path = corpus("dumps.txt");
    if std::env::var_os("DUMPS").is_some_and(|wish| wish == "write") {
        fs::write(&path, &lines).expect("it can be written");
        panic!("{}: written", path.display());
    }
    let stored = fs::read_to_string(path).expect("it is there");
    for (is, expected) in lines.lines().zip(stored.lines()) {
        assert_eq!(is, expected);
    }
    let faults = lines.lines().filter(|line| line.contains(" in the section at ")).count();
    assert_eq!((lines.lines().count(), stored.lines().count(), faults), (46, 46, 6));
}

/// No line that can be folded is longer than 100 columns: a longer one is one text or one name.
#[test]
fn lines_are_folded() {
    for bytes in components() {
        let (_, text, _) = dump(&[], &bytes);
        for line in text.lines().filter(|line| line.chars().count() > 100) {
            assert!(!line.contains(['(', '{', '[']) || line.contains('"'), "{line}");
        }
    }
}

/// The JSON of each component has the sections and the indices that `list` finds, and its sections
/// are one after the other.
#[test]
fn json_is_what_is_listed() {
    let mut compared = 0;
    for bytes in components() {
        let json = Value::read(&dump(&["--json"], &bytes).1);
        let Ok(listing) = list(&bytes) else {
            assert_ne!(json.at("fault"), &Value::Null);
            continue;
        };
        let component = json.at("component");
        let mut next = [0; 13];
        let mut end = 8;
        let sections = component.at("sections").list();
        assert_eq!(sections.len(), listing.sections.len());
        for (is, listed) in sections.iter().zip(&listing.sections) {
            assert_eq!(is.at("start").number(), end);
            end = is.at("end").number();
            section(is, listed, &mut next);
        }
        assert_eq!((component.at("start").number(), end), (0, bytes.len() as u128));
        assert_eq!(json.at("fault"), &Value::Null);
        compared += 1;
    }
    assert_eq!(compared, 40);
}

/// The section is the one that was listed, and its items have the next indices.
fn section(is: &Value, listed: &ListedSection, next: &mut [u128; 13]) {
    let (id, start) = (is.at("id").number(), is.at("start").number());
    assert_eq!((id, start), (listed.id.into(), listed.place as u128));
    let items = is.at("items").list();
    assert_eq!(items.len(), listed.items.len());
    assert_eq!(is.at("count").number(), items.len() as u128);
    for (item, listed) in items.iter().zip(&listed.items) {
        let Some((space, count)) = listed.defined_indices() else {
            assert_eq!((item.at("space"), item.at("index")), (&Value::Null, &Value::Null));
            continue;
        };
        assert_eq!(item.at("space").text(), WORDS[space.number()]);
        assert_eq!(item.at("index").number(), next[space.number()]);
        assert_eq!(item.at("count").number(), count.into());
        next[space.number()] += u128::from(count);
    }
}

/// The words for the index spaces.
const WORDS: [&str; Space::ALL.len()] = [
    "core module",
    "core func",
    "core type",
    "core memory",
    "core table",
    "core instance",
    "core tag",
    "core global",
    "func",
    "instance",
    "value",
    "component",
    "type",
];
