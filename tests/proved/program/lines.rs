//! Lines of scripts that can't be parsed: each word with one word too many, one too few, a number
//! out of range, and an unknown flag.

use super::outcome::expect;
use super::vectors::{bad, words};
use crate::proved::proved_scripts::callers::accepted_text;
use crate::proved::wenc::line::command;
use crate::shim::alloc::Global;
use std::string::String;
use std::vec::Vec;
use std::{format, str, vec};

/// Bad lines beside those of `vectors/bad.rs`: of items, of functions with options, and others. The
/// rest is made of the lines of functions.
const BAD: &[&str] = &[
    "import f func 00000000009999999999",
    "export f func 9 9",
    "export f func 4294967296",
    "alias-export 9 func f 9",
    "core-module 00 9",
    "core-module",
    "core-module 0",
    "core-module 0g",
    "core-module 00 00",
    "append-names 9",
    "append-names x",
    "start 1",
    "start 1 1 x",
    "start 1 1 ",
    "start 4294967296 1",
    "start 1 4294967296",
    "start 1 1 4294967296",
    "lift 0 0",
    "lower 0",
    "task.return",
    "context.get 0",
    "context.set 0",
    "stream.write 0",
    "future.read 0",
    "future.write 0",
    "error-context.new",
    "error-context.debug-message",
    "import",
    "import f func 0\r",
    " ",
];

fn is_bad(line: &str) {
    expect(line, &[], line.as_bytes(), &(1, b"", b"line 1\n"));
    assert!(command(Global, line.as_bytes()).unwrap().is_none(), "{line}");
}

/// Lines made of one of a function, whose numbers are all indices but a last flag.
fn made_of(line: &str) -> Vec<String> {
    let words: Vec<&str> = line.split(' ').collect();
    let mut made = vec![format!("{line} 9"), format!("{line} 0")];
    for at in 1..words.len() {
        let mut other = words.clone();
        other[at] = "4294967296";
        made.push(other.join(" "));
        made.push(words[..at].join(" "));
    }
    if words[0].contains("cancel") && words.len() > 1 {
        made.push([&words[..words.len() - 1], &["2"]].concat().join(" "));
    }
    made
}

#[test]
fn each_word() {
    BAD.iter().for_each(|line| is_bad(line));
    for (line, _) in bad::VECTORS.iter().filter(|(script, _)| !script.contains(&b'\n')) {
        assert!(command(Global, line).unwrap().is_none(), "{line:?}");
    }
    for line in [&b""[..], b"import f func 0\n"] {
        assert!(command(Global, line).unwrap().is_none(), "{line:?}");
    }
    let (mut lines, mut functions) = (0, 0);
    for line in
        words::VECTORS.iter().flat_map(|vector| str::from_utf8(vector.script)).flat_map(str::lines)
    {
        assert!(accepted_text(Global, line.as_bytes()).is_some(), "{line}");
        lines += 1;
        if line.contains('.') {
            functions += 1;
            made_of(line).iter().for_each(|line| is_bad(line));
        }
    }
    assert_eq!((lines, functions), (66, 43));
}
