//! Options, files and streams.

use crate::corpus::corpus;
use crate::{
    FUNCTION, FUNCTION_TEXT, PROGRAM, completions, component, dump, expect_of, file, file_of, run,
    run_into, start,
};
use std::collections::BTreeSet;
use std::fs;
use std::io::{self, BufRead, BufReader, Write};
use std::path::Path;
use std::process::{Command, Stdio};
use wenc_dump::Terminal;

const USAGE: &str = "usage: wenc-dump [OPTION]... FILE...\n";

fn expect_run(arguments: &[&str], input: &[u8], (status, out, err): (u8, &str, &str)) {
    let output = run(arguments, input, Terminal::default());
    assert_eq!(output, (status, out.into(), err.into()), "{arguments:?}");
}

#[test]
fn bad_arguments_have_the_usage_printed() {
    for (arguments, bad) in [
        (&[][..], "no file"),
        (&["-x", "--"], "no file"),
        (&["-", "--he\n"], "no option --he\\n"),
        (&["--color=blue", "-"], "no value of --color: blue"),
        (&["--color", "--", "-"], "no value of --color: --"),
        (&["--width=-1", "-"], "no value of --width: -1"),
        (&["--width=", "-"], "no value of --width: "),
        (&["-", "--section"], "no value of --section"),
        (&["--json=1", "-"], "no option --json=1"),
    ] {
        expect_run(arguments, b"", (2, "", &format!("wenc-dump: {bad}\n{USAGE}")));
    }
}

/// The words for sections, in a message about another one.
const KINDS: &str = "custom, core-module, core-instance, core-type, component, instance, alias, \
    type, canonical-function, start, import, export, function, table, memory, global, element, \
    code, data, data-count, tag";

#[test]
fn the_words_for_sections_are_listed() {
    for kind in ["imports", "256", "", "core"] {
        let message = format!(
            "wenc-dump: no value of --section: {kind}\nit takes an id, or one of {KINDS}\n{USAGE}"
        );
        expect_run(&[&format!("--section={kind}"), "-"], b"", (2, "", &message));
    }
    let component = component(FUNCTION);
    for kind in KINDS.split(", ") {
        assert_eq!(dump(&["--section", kind], &component).0, 0, "{kind}");
    }
}

/// The options that `--help` lists, those with a value with a `=`.
fn listed_options() -> BTreeSet<String> {
    let (_, help, _) = dump(&["--help"], b"");
    let lines = help.lines().filter(|line| line.trim_start().starts_with('-'));
    let words = lines.flat_map(|line| line.split([' ', ',']).filter(|word| word.len() > 1));
    let options = words.filter(|word| word.starts_with('-'));
    options.map(|word| word.split_inclusive('=').next().expect("it isn't empty").into()).collect()
}

/// The program takes the options that it lists, and each shell completes them and their values.
#[test]
fn options_are_completed() {
    let listed = listed_options();
    assert!(listed.len() == 18 && listed.contains("-x") && listed.contains("--width="));
    let component = file("completed", FUNCTION);
    for option in &listed {
        let value = match option.as_str() {
            "--section=" => "import",
            "--color=" => "never",
            "--width=" => "9",
            "--at=" => "0x9",
            "--output=" => concat!(env!("CARGO_TARGET_TMPDIR"), "/printed"),
            "-o" => concat!(env!("CARGO_TARGET_TMPDIR"), "/printed too"),
            _ => "",
        };
        assert!(start(&[&format!("{option}{value}")], &component).status.success(), "{option}");
    }
    // what the program compares arguments with
    let source = include_str!("../../src/arguments.rs").split('"');
    let taken: BTreeSet<&str> = source.filter(|text| text.starts_with('-')).collect();
    let named = listed.iter().map(|text| text.trim_end_matches('='));
    let mut named: BTreeSet<&str> = named.filter(|text| text.starts_with("--")).collect();
    named.extend(["-", "--"]);
    assert_eq!(taken, named);
    for (shell, options) in completions::options("wenc-dump") {
        assert_eq!(options, listed, "{shell}");
    }
    for (shell, file) in completions::files("wenc-dump") {
        let (_, kinds) = file.split_once("custom").expect("the first kind");
        let (kinds, _) = kinds.split_once("tag").expect("the last kind");
        let kinds = kinds.split([' ', '\n', '\\']).filter(|word| !word.is_empty());
        let kinds: Vec<&str> = ["custom"].into_iter().chain(kinds).chain(["tag"]).collect();
        assert_eq!(kinds.join(", "), KINDS, "{shell}");
        assert!(file.contains("always auto never"), "{shell}");
    }
    completions::are_read_by_shells("wenc-dump");
}

#[cfg(unix)]
#[test]
fn bash_completes_words() {
    let of_core = ["core-module", "core-instance", "core-type"];
    for (words, found) in [
        (&["--c"][..], &["--color=", "--check", "--compact"][..]),
        (&["--color", "=", "a"], &["always", "auto"]),
        (&["--color", "="], &["always", "auto", "never"]),
        (&["x.wasm", "--section", "core-"], &of_core),
        (&["--section", "=", "imp"], &["import"]),
        (&["--width", "=", ""], &[]),
        (&["--section", "import", "-h"], &["-h"]),
        (&[""], &[]),
        (&["--", "--c"], &[]),
    ] {
        completions::bash_gives("wenc-dump", words, found);
    }
}

#[test]
fn some_sections_are_printed() {
    let types = "\
0x0..0x17 component, 23 bytes
  0x8..0xf type section, 7 bytes, 1 item
    0xb type 0: Func { is_async: false, params: [], result: None }
";
    let imports = "\
0x0..0x17 component, 23 bytes
  0xf..0x17 import section, 8 bytes, 1 item
    0x12 func 0: import \"f\" Func(0)
";
    let component = component(FUNCTION);
    for arguments in [&["--section=type", "-"][..], &["--section", "7", "-"]] {
        expect_run(arguments, &component, (0, types, ""));
    }
    expect_run(&["-", "--section=import"], &component, (0, imports, ""));
    let both = ["--section=import", "--section=7", "-"];
    expect_run(&both, &component, (0, FUNCTION_TEXT, ""));
    expect_run(&["--section=core-module", "-"], &component, (0, &imports[..30], ""));
    let json = "{\"version\":1,\"file\":\"-\",\"component\":{\"start\":0,\"end\":23,\"name\":null,\
        \"sections\":[]},\
        \"fault\":null}\n";
    expect_run(&["--section=start", "--json", "-"], &component, (0, json, ""));
}

/// The contents of selected sections are printed; of the others, only faults are reported.
#[test]
fn sections_are_those_of_the_file() {
    let nested = b"\x04\x13\0asm\x0d\0\x01\0\x06\x01\0\0\x02\x01x\x06\x02\x01\x09";
    let bytes = component(&[&nested[..], b"\x06\x01\0"].concat());
    let out = "\
0x0..0x20 component, 32 bytes
  0x1d..0x20 alias section, 3 bytes, 0 items
";
    let err = "wenc-dump: -: bad item 0 at 0x1c in the section at 0x19: 0x09 where an alias is expected\n";
    expect_run(&["--section=alias", "-"], &bytes, (1, out, err));
    let out = "\
0x0..0x20 component, 32 bytes
  0x8..0x1d component section, 21 bytes, 1 item
    0xa..0x1d component 0, 19 bytes
      0x12..0x15 alias section, 3 bytes, 0 items
      0x15..0x19 custom section, 4 bytes, 1 item
        0x17 custom \"x\", 0 bytes
      0x19..0x1d alias section, 4 bytes, 1 item
        0x1c items that aren't read
          0x1c: 09
";
    expect_run(&["--section=component", "-"], &bytes, (1, out, err));
    let module = b"\0asm\x01\0\0\0\x01\x01\0\x08\x01\x07";
    let out = "\
0x0..0xe core module, 14 bytes
  0xb..0xe start section, 3 bytes, 1 item
    0xd start of 7
";
    expect_run(&["--section=start", "-"], module, (0, out, ""));
}

#[test]
fn output_is_coloured_always_or_never() {
    let component = component(FUNCTION);
    let (_, out, _) = dump(&["--color=always"], &component);
    assert!(out.starts_with("\x1b[2m0x0..0x17\x1b[0m component, 23 bytes\n"), "{out}");
    for never in ["--color=never", "--color=auto"] {
        expect_run(&[never, "-"], &component, (0, FUNCTION_TEXT, ""));
    }
    let terminal = Terminal { has_colours: true, columns: Some(40) };
    let printed = run(&["--color=never", "--width=100", "-"], &component, terminal);
    assert_eq!(printed, (0, FUNCTION_TEXT.into(), String::new()));
}

#[test]
fn lines_have_so_many_columns() {
    let component = component(FUNCTION);
    let line = "    0xb type 0: Func { is_async: false, params: [], result: None }\n";
    let lines = "    0xb type 0: Func {\n      is_async: false,\n      params: [],\n      \
        result: None,\n    }\n";
    let folded = FUNCTION_TEXT.replace(line, lines);
    let len = line.len() - 1;
    expect_run(&["--width", &len.to_string(), "-"], &component, (0, FUNCTION_TEXT, ""));
    for len in [0, 1, len - 1] {
        expect_run(&["-", &format!("--width={len}")], &component, (0, &folded, ""));
    }
}

#[test]
fn help_and_version() {
    for help in [&["--help"][..], &["-h"], &["-x", "-", "-h"]] {
        let (status, out, err) = dump(help, b"");
        assert_eq!((status, err.as_str()), (0, ""));
        assert!(out.starts_with(USAGE) && out.lines().all(|line| line.len() < 100));
        assert!(out.contains("standard input") && out.contains("\"fault\""), "{out}");
    }
    let version = format!("wenc-dump {}\n", env!("CARGO_PKG_VERSION"));
    for arguments in [["--version"], ["-V"]] {
        expect_run(&arguments, b"", (0, &version, ""));
    }
}

#[test]
fn standard_input_is_read() {
    expect_run(&["-"], &component(FUNCTION), (0, FUNCTION_TEXT, ""));
    let bad = "wenc-dump: -: no component's header at 0x0: found an empty file\n";
    expect_run(&["-"], b"", (1, "", bad));
    // after `--` all are files, and this one doesn't exist
    let (status, _, err) = run(&["--", "--json"], b"", Terminal::default());
    assert!(status == 1 && err.starts_with("wenc-dump: --json: "), "{err}");
}

#[test]
fn several_files_have_their_names_in_front() {
    let (good, bad) = (file("first of two", FUNCTION), file_of("second of two", b""));
    let output = Command::new(PROGRAM).args([&good, &bad, &good]).output().expect("it runs");
    let front = format!("{}:\n{FUNCTION_TEXT}", good.display());
    let out = format!("{front}{}:\n{front}", bad.display());
    assert_eq!(String::from_utf8_lossy(&output.stdout), out);
    let err = format!(
        "wenc-dump: {}: no component's header at 0x0: found an empty file\n",
        bad.display()
    );
    assert_eq!(String::from_utf8_lossy(&output.stderr), err);
    assert_eq!(output.status.code(), Some(1));
}

#[test]
fn bytes_are_printed() {
    let out = "\
0x0..0x17 component, 23 bytes
  0x8..0xf type section, 7 bytes, 1 item
    0xb type 0: Func { is_async: false, params: [], result: None }
      0xb: 40 00 01 00
  0xf..0x17 import section, 8 bytes, 1 item
    0x12 func 0: import \"f\" Func(0)
      0x12: 00 01 66 01 00
";
    for option in ["-x", "--hex"] {
        expect_of(&[option], &component(FUNCTION), out, "");
    }
    // those of a module are printed where they are read; 17 of them are on two lines
    let module = b"\x01\x27\0asm\x01\0\0\0\x07\x05\x01\x01f\0\x02\
        \0\x16\x04four0123456789abcdef\x10\x0a\x01\0";
    let out = "\
0x0..0x31 component, 49 bytes
  0x8..0x31 core module section, 41 bytes, 1 item
    0xa..0x31 core module 0, 39 bytes
      0x12..0x19 export section, 7 bytes, 1 item
        0x15 export \"f\" Func 2
          0x15: 01 66 00 02
      0x19..0x31 custom section \"four\", 24 bytes
        0x20: 30 31 32 33 34 35 36 37 38 39 61 62 63 64 65 66
        0x30: 10
";
    expect_of(&["-x"], &component(&module[..41]), out, "");
}

/// What can't be printed in a file's name is escaped, a line break as well.
#[cfg(unix)]
#[test]
fn names_of_files_are_escaped() {
    use std::ffi::OsStr;
    use std::os::unix::ffi::OsStrExt;
    let name = OsStr::from_bytes(b"it's\n\x1b[2J \xe2\x80\xae\xff\\\"\xc3\xa9");
    let output = start(&[], Path::new(name));
    let err = String::from_utf8(output.stderr).expect("it is text");
    let escaped = "wenc-dump: it's\\n\\u{1b}[2J \\u{202e}\\xff\\\\\"é: ";
    assert!(err.starts_with(escaped), "{err}");
    assert_eq!(output.status.code(), Some(1));
}

/// Lines have the width of the terminal, unless the environment has another one.
#[cfg(target_os = "linux")]
#[test]
fn lines_are_as_wide_as_the_terminal() {
    let path = file("wide", FUNCTION);
    let widest = |columns: &str| {
        let command = format!("{columns} '{PROGRAM}' --color=never '{}'", path.display());
        let mut script = Command::new("script");
        script.args(["-qec", &format!("stty cols 60; {command}"), "/dev/null"]);
        let output = script.env_remove("COLUMNS").stdin(Stdio::null()).output().ok()?;
        let out = String::from_utf8(output.stdout).expect("it is text");
        out.lines().map(|line| line.trim_end().len()).max()
    };
    let [Some(own), Some(stated)] = ["", "COLUMNS=80"].map(widest) else {
        return println!("left out: the width of a terminal: no script");
    };
    assert!(own <= 60 && 60 < stated && stated <= 80, "{own} {stated}");
}

/// A writer whose reader closes after this many bytes.
struct Left(usize);

impl Write for Left {
    fn write(&mut self, bytes: &[u8]) -> io::Result<usize> {
        self.0 = self.0.checked_sub(bytes.len()).ok_or(io::ErrorKind::BrokenPipe)?;
        Ok(bytes.len())
    }

    fn flush(&mut self) -> io::Result<()> {
        Ok(())
    }
}

#[test]
fn a_reader_that_leaves_ends_it_quietly() {
    for (options, len) in [(&[][..], FUNCTION_TEXT.len()), (&["--json"], 400)] {
        for left in 0..len {
            let mut out = Left(left);
            let arguments = [options, &["-"]].concat();
            let result = run_into(&mut out, &arguments, &component(FUNCTION), Terminal::default());
            assert_eq!(result, (0, String::new()), "{left}");
        }
    }
}

/// More is printed than a pipe holds.
#[test]
fn a_closed_pipe_ends_it_quietly() {
    let path = corpus("wasm/33-many.wasm");
    let mut command = Command::new(PROGRAM);
    command.args([&path; 9]).stdout(Stdio::piped()).stderr(Stdio::piped());
    let mut child = command.spawn().expect("the program is there");
    let mut out = BufReader::new(child.stdout.take().expect("it is a pipe"));
    let mut line = String::new();
    out.read_line(&mut line).expect("it is printed");
    drop(out);
    assert_eq!(line, format!("{}:\n", path.display()));
    let output = child.wait_with_output().expect("it ends");
    assert_eq!((output.status.code(), output.stderr.len()), (Some(0), 0));
}

/// A full device accepts no byte.
#[cfg(target_os = "linux")]
#[test]
fn a_write_that_fails_has_a_message() {
    for option in ["--hex", "--json", "--help"] {
        let full = fs::File::options().write(true).open("/dev/full").expect("it is there");
        let mut command = Command::new(PROGRAM);
        let command = command.arg(option).args([file("full", FUNCTION), file("full", FUNCTION)]);
        let output = command.stdout(full).output().expect("it runs");
        let err = String::from_utf8(output.stderr).expect("it is text");
        assert!(err.starts_with("wenc-dump: standard output: ") && err.lines().count() == 1);
        assert_eq!(output.status.code(), Some(1));
    }
}
