//! The components in the examples of the documentation: each is valid to upstream's validator.
//!
//! An example says which bytes it makes, and is run as a test of the documentation; so it is enough
//! to read what it says.

use crate::toolchain::{Linker, linker};
use std::path::{Path, PathBuf};
use wenc::Component;

/// An example, with its file and line.
pub struct Example {
    pub place: String,
    pub code: String,
}

/// The files of a folder that end so, in their order.
pub fn files(folder: &Path, ending: &str) -> Vec<PathBuf> {
    let mut found = Vec::new();
    for entry in std::fs::read_dir(folder).expect("the folder is there") {
        let path = entry.expect("it is told").path();
        if path.is_dir() {
            found.extend(files(&path, ending));
        } else if path.extension().is_some_and(|extension| extension == ending) {
            found.push(path);
        }
    }
    found.sort();
    found
}

/// The examples in the comments of a file.
pub fn examples(path: &Path) -> Vec<Example> {
    let text = std::fs::read_to_string(path).expect("it is text");
    let (mut found, mut open): (Vec<Example>, Option<Example>) = (Vec::new(), None);
    for (number, line) in text.lines().enumerate() {
        let line = line.trim_start();
        let Some(line) = line.strip_prefix("///").or_else(|| line.strip_prefix("//!")) else {
            continue;
        };
        match (line.trim().strip_prefix("```"), &mut open) {
            (Some(_), Some(_)) => found.extend(open.take()),
            (Some(_), None) => {
                let place = format!("{}:{}", path.display(), number + 1);
                open = Some(Example { place, code: String::new() });
            }
            (None, Some(example)) => {
                example.code += line;
                example.code += "\n";
            }
            (None, None) => {}
        }
    }
    found
}

/// The bytes of the literal with which this begins: a text or an array of bytes.
pub fn literal(code: &str) -> Vec<u8> {
    let code = code.trim_start().trim_start_matches(['*', '&']);
    if let Some(array) = code.strip_prefix('[') {
        let (array, _) = array.split_once(']').expect("it ends");
        return array.split(',').map(str::trim).filter(|byte| !byte.is_empty()).map(byte).collect();
    }
    let text = code.strip_prefix("b\"").unwrap_or_else(|| panic!("no literal: {code}"));
    let (mut bytes, mut letters) = (Vec::new(), text.chars());
    loop {
        match letters.next().expect("it ends") {
            '"' => return bytes,
            '\\' => match letters.next().expect("a letter") {
                'x' => {
                    let digits: String = letters.by_ref().take(2).collect();
                    bytes.push(u8::from_str_radix(&digits, 16).expect("two digits"));
                }
                '0' => bytes.push(0),
                'n' => bytes.push(b'\n'),
                '\n' => letters = letters.as_str().trim_start().chars(),
                letter => panic!("\\{letter}"),
            },
            letter => bytes.push(u8::try_from(letter).expect("a byte")),
        }
    }
}

fn byte(text: &str) -> u8 {
    match (text.strip_prefix("b'"), text.strip_prefix("0x")) {
        (Some(letter), _) => letter.as_bytes()[0],
        (_, Some(digits)) => u8::from_str_radix(digits, 16).expect("digits"),
        _ => text.parse().unwrap_or_else(|_| panic!("no byte: {text}")),
    }
}

/// The components that an example has, or says it makes: all literals that begin as one, and what
/// is compared with the bytes after a header.
fn components(code: &str) -> Vec<Vec<u8>> {
    let whole = code.match_indices(r#"b"\0asm\x0d"#).map(|(at, _)| literal(&code[at..]));
    let mut found: Vec<Vec<u8>> = whole.collect();
    for compared in code.split("assert_eq!(").skip(1) {
        for call in [".finish()", ".as_slice()"] {
            let Some((of, rest)) = compared.split_once(call) else { continue };
            let is_name = of.trim().chars().all(|letter| letter.is_alphanumeric());
            if !is_name || of.trim() == "module" {
                continue;
            }
            if let Some(rest) = rest.strip_prefix("[8..],") {
                found.push([&Component::HEADER[..], &literal(rest)].concat());
            } else {
                let other = rest.trim_start_matches([',', ' ', '\n']);
                let name = other.split(|letter: char| !letter.is_alphanumeric()).next();
                let of_name = format!(r#"let {} = b"\0asm"#, name.unwrap_or_default());
                let is_whole = other.starts_with(r#"b"\0asm"#) || code.contains(&of_name);
                assert!(is_whole, "neither a component nor what stands behind its header: {code}");
            }
        }
    }
    found
}

/// Why the validator rejects this component, except for what it reports for every start.
pub fn told_but_of_starts(linker: &Linker, component: &[u8]) -> Option<String> {
    let start = "component cannot have more than one start function";
    linker.refuses(component).filter(|told| !told.starts_with(start))
}

#[test]
fn components_of_examples_are_valid() {
    let sources = Path::new(env!("CARGO_MANIFEST_DIR")).join("../../src");
    let linker = linker("examples of the documentation");
    let (mut count, mut refused) = (0, Vec::new());
    for example in files(&sources, "rs").iter().flat_map(|path| examples(path)) {
        for component in components(&example.code) {
            count += 1;
            let told = linker.as_ref().and_then(|linker| told_but_of_starts(linker, &component));
            refused.extend(told.map(|told| format!("{}: {told}", example.place)));
        }
    }
    assert!(refused.is_empty(), "{}", refused.join("\n"));
    assert!(count >= 35, "{count} components are found");
}

#[test]
fn literals_are_read() {
    assert_eq!(literal(" *b\"\\0a\\x1fb\\\n    \\x02\")"), [0, b'a', 0x1f, b'b', 2]);
    assert_eq!(literal("[1, 0x0a, b'x',]"), [1, 10, b'x']);
    let code = "assert_eq!(x.finish()[8..], *b\"\\0\");\nassert_eq!(module.finish(), [1]);";
    assert_eq!(components(code), [[&Component::HEADER[..], &[0]].concat()]);
    let code = "list(b\"\\0asm\\x0d\\0\");";
    assert_eq!(components(code), [b"\0asm\x0d\0"]);
}
