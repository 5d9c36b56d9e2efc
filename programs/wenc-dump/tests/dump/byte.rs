//! What one byte is, summaries, and where the output goes.

use crate::{FUNCTION, component, dump, file, file_of, start};
use std::fs;

/// What the bytes of a component are, from its sections on: the type of a function, and its import.
#[test]
fn each_byte_is_told() {
    let expected = [
        "    0x8 0x07: its id, 7",
        "    0x9 0x05: its size, 5",
        "    0xa 0x01: the number of its items, 1",
        "      0xb 0x40: Func, where 0x3f to 0x43, 0x63 to 0x6b or 0x6d to 0x7f is expected",
        "      0xc 0x00: params: 0 elements",
        "      0xd 0x01: 0xd..0xf result: none, where 0x00 to 0x01 is expected",
        "      0xe 0x00: 0xd..0xf result: none, where 0x00 is expected",
        "    0xf 0x0a: its id, 10",
        "    0x10 0x06: its size, 6",
        "    0x11 0x01: the number of its items, 1",
        "      0x12 0x00: name: NameTree, where 0x00 to 0x02 is expected",
        "      0x13 0x01: 0x13..0x15 name, name: \"f\"",
        "      0x14 0x66: 0x13..0x15 name, name: \"f\"",
        "      0x15 0x01: ty: Func, where 0x00 to 0x05 is expected",
        "      0x16 0x00: ty: type 0",
    ];
    let component = component(FUNCTION);
    for (offset, expected) in (8..).zip(expected) {
        let (status, out, err) = dump(&[&format!("--at={offset:#x}")], &component);
        assert_eq!((status, err.as_str()), (0, ""));
        assert_eq!(out.lines().last(), Some(expected));
    }
    let around = "\
0x0..0x17 component, 23 bytes
  0xf..0x17 import section, 8 bytes, 1 item
    0x12 func 0: import \"f\" Func(0)
      0x16 0x00: ty: type 0
";
    assert_eq!(dump(&["--at", "22"], &component).1, around);
    let (status, out, err) = dump(&["--at=23"], &component);
    assert_eq!((status, out.as_str()), (1, ""));
    assert_eq!(err, "wenc-dump: -: no byte at 0x17, the file has 23 bytes\n");
    assert!(dump(&["--at=0xg"], &component).2.contains("no value of --at: 0xg\n"));
}

#[test]
fn a_byte_that_is_not_read_is_told() {
    let bytes = component(b"\x07\x03\x01\x99\x01");
    let (status, out, err) = dump(&["--at=0xc"], &bytes);
    let expected = "    0xb items that aren't read\n      0xb: 99 01\n";
    assert!(status == 1 && out.ends_with(expected), "{out}");
    assert!(err.contains("0x99 where a type is expected"), "{err}");
}

#[test]
fn a_summary_has_no_items() {
    let nested = [&b"\x04\x17"[..], &component(FUNCTION)].concat();
    let nested = component(&[&nested, &b"\0\x02\x01x"[..]].concat());
    let out = "\
0x0..0x25 component, 37 bytes
  0x8..0x21 component section, 25 bytes, 1 item
    0xa..0x21 component 0, 23 bytes
      0x12..0x19 type section, 7 bytes, 1 item
      0x19..0x21 import section, 8 bytes, 1 item
  0x21..0x25 custom section, 4 bytes, 1 item
";
    assert_eq!(dump(&["--summary"], &nested), (0, out.into(), String::new()));
}

#[test]
fn output_goes_to_a_file() {
    let component = component(FUNCTION);
    let (_, expected, _) = dump(&["-x"], &component);
    let path = file_of("its output", b"earlier");
    let path = path.to_str().expect("it is text");
    for options in [&["-x", "-o", path][..], &[&format!("-xo{path}")], &["--hex", "--output", path]]
    {
        fs::write(path, "earlier").expect("it is written");
        assert_eq!(dump(options, &component), (0, String::new(), String::new()));
        assert_eq!(fs::read_to_string(path).expect("it is there"), expected);
    }
    let folder = env!("CARGO_TARGET_TMPDIR");
    let output = start(&["-o", folder], &file("to a folder", FUNCTION));
    let err = String::from_utf8(output.stderr).expect("it is text");
    assert!(err.starts_with(&format!("wenc-dump: {folder}: ")), "{err}");
    assert_eq!(output.status.code(), Some(1));
}

/// It may be a file that is read, also after another one.
#[test]
fn output_goes_to_a_file_that_is_read() {
    let other = file("read too", b"");
    let other = other.to_str().expect("it is text");
    for option in ["--hex", "--json", "--html"] {
        let path = file("read and written", FUNCTION);
        let expected = start(&[option, other], &path).stdout;
        let name = path.to_str().expect("it is text");
        let output = start(&[option, "-o", name, other], &path);
        assert!(output.status.success() && output.stdout.is_empty() && output.stderr.is_empty());
        assert!(fs::read(&path).expect("it is there") == expected, "{option}");
    }
}

#[test]
fn options_of_one_letter_are_combined() {
    let component = component(FUNCTION);
    assert_eq!(dump(&["-xV"], &component), dump(&["-V"], &component));
    assert!(dump(&["-xh"], &component).1.starts_with("usage: "));
    for bad in ["-xy", "-yx", "-x-"] {
        let (status, _, err) = dump(&[bad], &component);
        assert!(status == 2 && err.starts_with(&format!("wenc-dump: no option {bad}\n")), "{err}");
    }
}

/// An unknown id in a core module is told as in a component.
#[test]
fn an_unknown_id_of_a_core_module_is_told() {
    for (header, last, what) in
        [(b"\0asm\x01\0\0\0", "0d", "core section"), (b"\0asm\x0d\0\x01\0", "0b", "section")]
    {
        let (_, _, err) = dump(&[], &[&header[..], b"\x6f\x69"].concat());
        let message = format!("bad {what} at 0x8: 0x6f at 0x8, where 0x00 to 0x{last} is expected");
        assert_eq!(err, format!("wenc-dump: -: {message}\n"));
    }
}
