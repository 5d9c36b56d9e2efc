//! The program `wenc`: its output, its exit status, and its messages on standard error.

#[allow(dead_code, reason = "some is for the other program")]
#[path = "program/completions.rs"]
mod completions;
#[cfg(unix)]
#[path = "program/manual.rs"]
mod manual;
#[allow(dead_code, reason = "some are for the library's own tests")]
#[path = "../../../tests/proved/program/vectors.rs"]
mod vectors;

use std::ffi::OsStr;
use std::io::Write;
use std::process::{Command, Output, Stdio};
use std::str;
use std::thread;

fn wenc<A: AsRef<OsStr>>(args: impl IntoIterator<Item = A>) -> Command {
    let mut command = Command::new(env!("CARGO_BIN_EXE_wenc"));
    command.args(args).stdin(Stdio::piped()).stdout(Stdio::piped()).stderr(Stdio::piped());
    command
}

/// Runs the program with this input, which it may not read to the end.
fn run(command: &mut Command, input: &[u8]) -> Output {
    let mut child = command.spawn().expect("the program is there");
    let mut stdin = child.stdin.take().expect("it is a pipe");
    thread::scope(|scope| {
        scope.spawn(move || drop(stdin.write_all(input)));
        child.wait_with_output().expect("it ends")
    })
}

/// Runs the program, and checks its exit status, its output and its messages on standard error.
fn expect<A: AsRef<OsStr>>(
    args: impl IntoIterator<Item = A>,
    input: &[u8],
    (status, out, err): (i32, &str, &str),
) {
    let output = run(&mut wenc(args), input);
    let script = String::from_utf8_lossy(input);
    assert_eq!(String::from_utf8_lossy(&output.stdout), out, "{script}");
    assert_eq!(String::from_utf8_lossy(&output.stderr), err, "{script}");
    assert_eq!(output.status.code(), Some(status), "{script}");
}

const NO_ARGUMENTS: [&str; 0] = [];

const COUNTS: &str = "10 1\n11 1\n0 0 0 0 0 0 0 0 2 0 0 0 0\n";

/// Arguments and an input, with the exit status, the output and the messages.
type Run = (&'static [&'static str], &'static str, (i32, &'static str, &'static str));

const RUNS: [Run; 10] = [
    // a carriage return before the end of a line belongs to the last word
    (&[], "alias-export 0 func n\r\n", (0, "0\n0061736d0d000100060701010000026e0d\n", "")),
    (&[], "import f func 0\r\n", (1, "", "line 1\n")),
    (&[], "import f func 0\n\nnope\n", (1, "", "line 3\n")),
    (
        &[],
        "start 0 4294967295\nstart 0 1\n",
        (2, "0\nrefused 2\n0061736d0d00010009070000ffffffff0f\n", ""),
    ),
    (&["list"], "0061736D0D0001000a060100016601000b0701000167010000\n", (0, COUNTS, "")),
    (&["list"], "0061736d0d0001000600\n", (3, "", "BadItem at 8\n")),
    (&["list"], "00\r\n", (1, "", "line 1\n")),
    (&["List"], "import f func 0\n", (1, "", "usage\n")),
    (&[""], "import f func 0\n", (1, "", "usage\n")),
    (&["list", ""], "0061736d0d000100", (1, "", "usage\n")),
];

#[test]
fn scripts_are_run_and_components_listed() {
    for vector in vectors::all() {
        let out = str::from_utf8(vector.out).expect("it is text");
        expect(NO_ARGUMENTS, vector.script, (vector.status.into(), out, ""));
    }
    for (args, input, end) in RUNS {
        expect(args, input.as_bytes(), end);
    }
}

#[cfg(unix)]
#[test]
fn arguments_that_are_not_utf_8_have_the_usage_printed() {
    use std::os::unix::ffi::OsStrExt;
    use std::os::unix::process::CommandExt;
    let no_text = OsStr::from_bytes(b"\xff");
    expect([no_text], b"", (1, "", "usage\n"));
    expect([OsStr::new("list"), no_text], b"", (1, "", "usage\n"));
    // the program's name is one of the arguments
    let output = run(wenc(["list"]).arg0(no_text), b"0061736d0d000100");
    assert_eq!((output.status.code(), &output.stderr[..]), (Some(1), &b"usage\n"[..]));
    let output = run(wenc(NO_ARGUMENTS).arg0(no_text), b"");
    assert_eq!((output.status.code(), &output.stdout[..]), (Some(0), &b"0061736d0d000100\n"[..]));
}

/// A full device accepts no byte. (A write to a pipe without a reader isn't certain to fail: a
/// process that another test starts at that moment inherits the reader.)
#[cfg(target_os = "linux")]
#[test]
fn writes_that_fail_have_a_status() {
    for (args, input) in [(&[][..], &b"import f func 0\n"[..]), (&["list"], b"0061736d0d000100")] {
        let full = std::fs::File::options().write(true).open("/dev/full").expect("it is there");
        let output = run(wenc(args).stdout(full), input);
        assert_eq!((output.status.code(), &output.stderr[..]), (Some(4), &b""[..]));
    }
}

/// A folder can't be read.
#[cfg(unix)]
#[test]
fn reads_that_fail_have_a_status() {
    for args in [&[][..], &["list"]] {
        let folder = std::fs::File::open(env!("CARGO_MANIFEST_DIR")).expect("it is there");
        let output = wenc(args).stdin(folder).output().expect("it ends");
        assert_eq!(output.status.code(), Some(4));
        assert_eq!((&output.stdout[..], &output.stderr[..]), (&b""[..], &b""[..]));
    }
}

#[cfg(unix)]
#[test]
fn of_the_manual() {
    manual::run("wenc", env!("CARGO_BIN_EXE_wenc"), 2);
}

/// The program's one word is completed, and it has no option.
#[test]
fn words_are_completed() {
    for (shell, options) in completions::options("wenc") {
        assert!(options.is_empty(), "{shell}");
    }
    for (shell, file) in completions::files("wenc") {
        assert!(file.contains("list"), "{shell}");
    }
    completions::are_read_by_shells("wenc");
    #[cfg(unix)]
    for (words, found) in [(&["l"][..], &["list"][..]), (&["x"], &[]), (&["list", "l"], &[])] {
        completions::bash_gives("wenc", words, found);
    }
}
