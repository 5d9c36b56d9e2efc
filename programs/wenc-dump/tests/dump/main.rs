//! The program `wenc-dump`: its output for worked components and for the corpus, as text and as
//! JSON, and its messages for bad ones.

mod byte;
mod causes;
mod check;
#[path = "../../../wenc/tests/program/completions.rs"]
mod completions;
mod corpus;
mod custom;
mod debug_names;
mod faults;
mod fuzz;
mod html;
mod json;
// The limits are those of optimized code.
#[cfg(all(target_os = "linux", not(debug_assertions)))]
mod limits;
#[cfg(unix)]
#[path = "../../../wenc/tests/program/manual.rs"]
mod manual;
mod options;
mod schema;
mod size;
mod text;
mod wit;

use std::fs;
use std::io::Write;
use std::path::{Path, PathBuf};
use std::process::{Command, Output};
use wenc_calls::{json_value, random, side_by_side};
use wenc_dump::{Streams, Terminal};

const PROGRAM: &str = env!("CARGO_BIN_EXE_dump-program");

/// A component that imports a function.
const FUNCTION: &[u8] = b"\x07\x05\x01\x40\0\x01\0\x0a\x06\x01\0\x01f\x01\0";

/// The output for it.
const FUNCTION_TEXT: &str = "\
0x0..0x17 component, 23 bytes
  0x8..0xf type section, 7 bytes, 1 item
    0xb type 0: Func { is_async: false, params: [], result: None }
  0xf..0x17 import section, 8 bytes, 1 item
    0x12 func 0: import \"f\" Func(0)
";

/// Starts the program with these options on a file.
fn start(options: &[&str], file: &Path) -> Output {
    Command::new(PROGRAM).args(options).arg(file).output().expect("the program starts")
}

/// Runs the program with these arguments and this input, for this terminal. Returns its exit status
/// and what it writes to standard output and to standard error.
fn run(arguments: &[&str], input: &[u8], terminal: Terminal) -> (u8, String, String) {
    let mut out = Vec::new();
    let (status, err) = run_into(&mut out, arguments, input, terminal);
    (status, String::from_utf8(out).expect("text"), err)
}

/// Runs the program with these options on these bytes, without a terminal.
fn dump(options: &[&str], bytes: &[u8]) -> (u8, String, String) {
    run(&[options, &["-"]].concat(), bytes, Terminal::default())
}

/// Runs the program with these arguments, input and output. It is compiled once for all callers.
fn run_into(
    out: &mut dyn Write,
    arguments: &[&str],
    mut bytes: &[u8],
    terminal: Terminal,
) -> (u8, String) {
    let mut err = Vec::new();
    let mut streams = Streams { input: &mut bytes, out, err: &mut err };
    let arguments = ["wenc-dump"].iter().chain(arguments).map(Into::into);
    let status = wenc_dump::run(arguments, terminal, &mut streams);
    (status, String::from_utf8(err).expect("text"))
}

/// Writes a file with these bytes.
fn file_of(name: &str, bytes: &[u8]) -> PathBuf {
    let path = Path::new(env!("CARGO_TARGET_TMPDIR")).join(name);
    fs::write(&path, bytes).expect("the file is written");
    path
}

/// Returns the component with these sections.
fn component(sections: &[u8]) -> Vec<u8> {
    [b"\0asm\x0d\0\x01\0", sections].concat()
}

/// Writes a file with the component with these sections.
fn file(name: &str, sections: &[u8]) -> PathBuf {
    file_of(name, &component(sections))
}

/// Checks what is printed of the component with these sections, and the messages.
fn expect(sections: &[u8], out: &str, messages: &str) {
    expect_of(&[], &component(sections), out, messages);
}

/// Checks what is printed of these bytes, and the messages, a line for each.
fn expect_of(options: &[&str], bytes: &[u8], out: &str, messages: &str) {
    let err: String =
        messages.lines().map(|message| format!("wenc-dump: -: {message}\n")).collect();
    let (status, printed, reported) = dump(options, bytes);
    assert_eq!((printed.as_str(), reported.as_str()), (out, err.as_str()));
    assert_eq!(status, u8::from(!err.is_empty()), "{err}");
}

#[cfg(unix)]
#[test]
fn of_the_manual() {
    manual::run("wenc-dump", PROGRAM, 7);
}
