//! The components of the pages, of C and of the proved examples: each is valid to upstream's
//! validator.
//!
//! Other tests compare what an example makes with the literal that is read here.

use crate::docs::{examples, files, literal, told_but_of_starts};
use crate::hex::bytes;
use crate::toolchain::linker;
use std::fs::read_to_string;
use std::path::{Path, PathBuf};
use wenc::Component;
use wenc_calls::format::{self, section};

fn path(of: &str) -> PathBuf {
    Path::new(env!("CARGO_MANIFEST_DIR")).join("../..").join(of)
}

fn text(of: &str) -> String {
    read(&path(of))
}

fn read(file: &Path) -> String {
    read_to_string(file).unwrap_or_else(|error| panic!("{}: {error}", file.display()))
}

/// The components in a text that are written in hexadecimal.
fn hexadecimal(text: &str) -> Vec<Vec<u8>> {
    let header: String = Component::HEADER.iter().map(|byte| format!("{byte:02x}")).collect();
    let words = text.split(|letter: char| !letter.is_ascii_hexdigit());
    let found = words.filter(|word| word.starts_with(&header));
    found.map(bytes).collect()
}

/// The rows of a source that say which bytes an example writes, by the example's name.
fn rows(source: &str) -> Vec<(&str, Vec<u8>)> {
    let rows = source.split(";\n").filter_map(|row| row.split_once(" =>"));
    let rows = rows.map(|(call, code)| (call.lines().last().unwrap_or(call), code.trim_start()));
    let rows = rows.filter(|(_, code)| code.starts_with("b\""));
    rows.map(|(call, code)| {
        let call = call.trim().trim_start_matches("written(").trim_start_matches("Ok(");
        (call.split('(').next().unwrap_or(call), literal(code))
    })
    .collect()
}

/// Sections of types without their ids.
const SECTIONS: &[(&str, u8)] = &[
    ("types::component_type", 7),
    ("types::instance_type", 7),
    ("types::core_types", 3),
    ("types::types", 7),
    ("types::defined_types", 7),
    ("types::func_type", 7),
];

/// Types, with the id of the section in which they stand.
const TYPES: &[(&str, u8)] = &[
    ("types::declarations", 7),
    ("types::module_type", 3),
    ("trees::core_type", 3),
    ("trees::defined", 7),
    ("trees::ty", 7),
];

/// Numbers, names, items and maps of names, which are parts of a component.
const PARTS: &[&str] = &[
    "base::encode",
    "base::holder",
    "base::names",
    "trees::canon",
    "parts::alias",
    "trees::core_instance",
    "trees::instance",
    "parts::extern_name",
];

/// The component that an example writes, or that has what it writes; none of a part.
fn component(name: &str, bytes: &[u8]) -> Option<Vec<u8>> {
    let among = |table: &[(&str, u8)]| table.iter().find(|row| row.0 == name).map(|row| row.1);
    if let Some(id) = among(SECTIONS) {
        return Some(format::component(&[&[id], bytes].concat()));
    }
    if let Some(id) = among(TYPES) {
        return Some(format::component(&section(id, &[&[1], bytes].concat())));
    }
    if PARTS.contains(&name) {
        return None;
    }
    match bytes {
        [0, b'a', b's', b'm', 0x0d, ..] => Some(bytes.to_vec()),
        [0, b'a', b's', b'm', 0x01, ..] => Some(format::component(&section(1, bytes))),
        _ => {
            let printed = hexadecimal(std::str::from_utf8(bytes).expect("it is text"));
            Some(printed.first().unwrap_or_else(|| panic!("{name} is no component")).clone())
        }
    }
}

#[test]
fn components_of_proved_examples_are_valid() {
    let source = text("tests/proved/examples.rs");
    let rows = rows(&source);
    let made = rows.iter().filter_map(|(name, bytes)| Some((name, component(name, bytes)?)));
    let made: Vec<_> = made.collect();
    assert_eq!(made.len(), 32, "components are found");
    assert_eq!(made.len() + PARTS.len(), rows.len(), "each is used once");
    let Some(linker) = linker("proved examples") else { return };
    for (name, component) in made {
        assert_eq!(told_but_of_starts(&linker, &component), None, "{name}");
    }
}

/// Code without its layout.
fn bare(code: &str) -> String {
    let code: String = code.chars().filter(|letter| !letter.is_whitespace()).collect();
    code.replace(",)", ")")
}

#[test]
fn doc_comments_show_the_proved_examples() {
    let proved = ["proved_parts", "proved_lists", "proved_tests", "proved_scripts"];
    let proved = proved.map(|name| files(&path(&format!("crates/{name}/src/examples")), "rt"));
    let proved: String = proved.iter().flatten().map(|file| bare(&read(file))).collect();
    let crates = std::fs::read_dir(path("crates")).expect("the crates are there");
    let sources = crates.map(|folder| folder.expect("it is told").path().join("src"));
    let sources = sources.filter(|sources| sources.exists());
    let shown = sources.flat_map(|sources| files(&sources, "rt"));
    let shown: Vec<_> = shown.flat_map(|file| examples(&file)).collect();
    assert!(shown.len() >= 45, "{} examples are found", shown.len());
    for example in shown {
        let code = bare(&example.code);
        assert!(!code.is_empty() && proved.contains(&code), "{}", example.place);
    }
}

#[test]
fn components_of_the_programs_for_c_are_valid() {
    let linker = linker("programs for C");
    for name in ["c/example.stdout", "c/first.stdout"] {
        let components = hexadecimal(&text(name));
        let [component] = &components[..] else { panic!("{name} has one component") };
        if let Some(linker) = &linker {
            assert_eq!(linker.refuses(component), None, "{name}");
        }
    }
}

/// The first command of README shows calls and bytes alone, and README says so.
#[test]
fn the_first_command_names_a_type_that_is_missing() {
    let components = hexadecimal(&text("README.md"));
    let [component] = &components[..] else { panic!("README has one component") };
    let Some(linker) = linker("README") else { return };
    let told = linker.refuses(component).expect("it is refused");
    assert!(told.contains("unknown type 0"), "{told}");
}
