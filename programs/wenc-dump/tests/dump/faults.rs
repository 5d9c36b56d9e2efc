//! What is printed before a fault, and its message.

use crate::corpus::components;
use crate::{component, dump, expect, expect_of, start};
use std::path::Path;

#[test]
fn types_too_deep_are_a_fault() {
    // 101 instance types, each the only declaration of the one around it
    let mut ty = vec![0x42, 0];
    for _ in 0..100 {
        ty.splice(0..0, [0x42, 1, 1]);
    }
    let section = [&[7, 0xaf, 2, 1][..], &ty].concat();
    let out = "\
0x0..0x13a component, 314 bytes
  0x8..0x13a type section, 306 bytes, 1 item
    0xc items that aren't read
      0xc: 42 01 01 42 01 01 42 01 01 42 01 01 42 01 01 42 ...
";
    let bad = "\
too deep item 0 at 0xc in the section at 0x8: the type at 0x138 is in 100 others";
    expect(&section, out, bad);
}

#[test]
fn files_that_are_none_of_both() {
    let none = [
        (&b""[..], "an empty file"),
        (b"(component)", "WebAssembly text"),
        (b"\0asm\x0c\0\x01\0", "another version of the format: version 0x1000c"),
        (b"hello", "other bytes: 68 65 6c 6c 6f"),
    ];
    for (bytes, found) in none {
        let bad = format!("no component's header at 0x0: found {found}");
        expect_of(&[], bytes, "", &bad);
    }
    let output = start(&[], Path::new("there is none"));
    assert_eq!((output.status.code(), output.stdout.len()), (Some(1), 0));
    assert!(output.stderr.starts_with(b"wenc-dump: there is none: "));
}

#[test]
fn core_modules_are_printed_as_far_as_they_are_read() {
    let out = "\
0x0..0xe core module, 14 bytes
  0x8..0xc custom section \"x\", 4 bytes
  0xc no core section
    0xc: 01 01
";
    let bad = "bad core section at 0xc: the bytes end at 0xe";
    expect_of(&[], b"\0asm\x01\0\0\0\0\x02\x01x\x01\x01", out, bad);
    // the second import has no kind; there is one export less than bytes; no start
    let module = b"\0asm\x01\0\0\0\
        \x02\x0c\x02\x01m\x01f\0\0\x01m\x01f\x05\
        \x07\x06\x01\x01f\0\0\x09\
        \x08\0";
    let out = "\
0x0..0x20 core module, 32 bytes
  0x8..0x16 import section, 14 bytes, 2 items
    0xb core func 0: import \"m\" \"f\" Function(0)
    0x11 items that aren't read
      0x11: 01 6d 01 66 05
  0x16..0x1e export section, 8 bytes, 1 item
    0x19 export \"f\" Func 0
    0x1d bytes behind the last item
      0x1d: 09
  0x1e..0x20 start section, 2 bytes, 1 item
    0x20 items that aren't read
";
    let bad = "\
bad item 1 at 0x11: 0x05 at 0x15, where 0x00 to 0x04 is expected
bytes behind the last item at 0x1d
bad item 0 at 0x20: the bytes end at 0x20";
    expect_of(&[], module, out, bad);
}

/// Sections without a count, with an unknown id, without a name, with bytes for no items; one that
/// is read; one that is cut.
const BAD_SECTIONS: &[u8] = b"\0asm\x01\0\0\0\x01\0\x41\0\0\x01\x07\x03\x02\0\0\x0b\x01\0\x01\x7f";

/// The sections after the module are printed too.
#[test]
fn sections_of_core_modules_in_components_are_faults() {
    let out = "\
0x0..0x25 component, 37 bytes
  0x8..0x22 core module section, 26 bytes, 1 item
    0xa..0x22 core module 0, 24 bytes
      0x12..0x14 type section, 2 bytes
        0x14 no count
      0x14..0x16 section 65, 2 bytes
        0x14 unknown section
          0x14: 41 00
      0x16..0x19 custom section, 3 bytes
        0x16 no name
          0x16: 00 01 07
      0x19..0x1d function section, 4 bytes, 0 items
        0x1c bytes behind the last item
          0x1c: 00
      0x1d..0x20 data section, 3 bytes, 0 items
      0x20 no core section
        0x20: 01 7f
  0x22..0x25 alias section, 3 bytes, 0 items
";
    let bad = "\
bad count at 0x14: the bytes end at 0x14
unknown section 65 at 0x14
custom section without a name at 0x16: needs 7 bytes or more from 0x19 on, where 0 are left
bytes behind the last item at 0x1c
bad core section at 0x20: needs 127 bytes or more from 0x22 on, where 0 are left";
    let sections = [b"\x01\x18", BAD_SECTIONS, b"\x06\x01\0"].concat();
    expect(&sections, out, bad);
}

/// Sections that aren't read, and some that are.
const FAULTY: &[u8] = b"\x0a\x06\x02\0\x01f\x01\0\
        \x0c\x01\x07\
        \x06\x01\x80\
        \0\x01\x07\
        \x07\x03\x01\x69\0\
        \x04\x0c\0asm\x0d\0\x01\0\x06\x02\x01\x09\
        \x04\x03\0as\
        \0\x1a\x0ecomponent-name\0\x02\x01c\x01\x05\x03\x01\0\x01t\
        \x06\x05\x01";

/// What is printed of them. Behind an item that isn't read, indices are unknown, and so are their
/// names.
const FAULTY_TEXT: &str = "\
0x0..0x50 component \"c\", 80 bytes
  0x8..0x10 import section, 8 bytes, 2 items
    0xb func 0: import \"f\" Func(0) \"t\"
    0x10 items that aren't read
  0x10..0x13 section 12, 3 bytes
    0x10 unknown section
      0x10: 0c 01 07
  0x13..0x16 alias section, 3 bytes
    0x15 no count
      0x15: 80
  0x16..0x19 custom section, 3 bytes, 1 item
    0x16 no name
      0x16: 00 01 07
  0x19..0x1e type section, 5 bytes, 1 item
    0x1c type ?: Defined(Own(0) \"t\")
  0x1e..0x2c component section, 14 bytes, 1 item
    0x20..0x2c component ?, 12 bytes
      0x28..0x2c alias section, 4 bytes, 1 item
        0x2b items that aren't read
          0x2b: 09
  0x2c..0x31 component section, 5 bytes, 1 item
    0x2e..0x31 component ?, 3 bytes
      0x2e no component's header
        0x2e: 00 61 73
  0x31..0x4d custom section, 28 bytes, 1 item
    0x33 custom \"component-name\", 11 bytes
      component \"c\"
      type 0 \"t\"
  0x4d no section
    0x4d: 06 05 01
";

/// After a section that can't be read, the next is printed if it has a size within bounds.
#[test]
fn what_follows_a_fault_is_printed() {
    let bad = "\
bad item 1 at 0x10 in the section at 0x8: the section ends where an import is expected
unknown section 12 at 0x10
bad count at 0x15 in the section at 0x13: the bytes end at 0x16
custom section without a name at 0x16: needs 7 bytes or more from 0x19 on, where 0 are left
bad item 0 at 0x2b in the section at 0x28: 0x09 where an alias is expected
no component's header at 0x2e: found other bytes: 00 61 73
bad section at 0x4d: needs 5 bytes or more from 0x4f on, where 1 is left";
    expect(FAULTY, FAULTY_TEXT, bad);
}

/// The count may be wrong, and the bytes items.
#[test]
fn indices_behind_bytes_behind_items_are_unknown() {
    let out = "\
0x0..0x11 component, 17 bytes
  0x8..0xc alias section, 4 bytes, 0 items
    0xb bytes behind the last item
      0xb: 00
  0xc..0x11 type section, 5 bytes, 1 item
    0xf type ?: Defined(Own(0))
";
    let bad = "bytes behind the last item at 0xb in the section at 0x8";
    expect(b"\x06\x02\0\0\x07\x03\x01\x69\0", out, bad);
}

#[test]
fn instance_sections_may_end_early() {
    let out = "\
0x0..0xb component, 11 bytes
  0x8..0xb instance section, 3 bytes, 1 item
    0xb items that aren't read
";
    let bad = "bad item 0 at 0xb in the section at 0x8: \
        the section ends where an instance is expected";
    expect(b"\x05\x01\x01", out, bad);
    let out = "\
0x0..0xd component, 13 bytes
  0x8..0xd instance section, 5 bytes, 1 item
    0xb items that aren't read
      0xb: 00 00
";
    let bad = "bad item 0 at 0xb in the section at 0x8: the bytes end at 0xd";
    expect(b"\x05\x03\x01\0\0", out, bad);
    let out = "\
0x0..0xf component, 15 bytes
  0x8..0xf instance section, 7 bytes, 2 items
    0xc instance 0: Instantiate { component: 7, args: [] }
    0xf items that aren't read
";
    let bad = "bad item 1 at 0xf in the section at 0x8: \
        the section ends where an instance is expected";
    expect(b"\x05\x84\0\x02\0\x07\0", out, bad);
}

/// A list of 64 GiB, and what is none of its bytes: nothing has to follow them.
#[test]
fn an_item_may_need_no_bytes_behind_it() {
    let section = b"\x07\x42\x03\x67\x7e\xff\xff\xff\xff\x1f\x42\0\x15wasi:io/streams@0.2.0\
        \x01\x04name\x03\x01\0C\x03\x01a\x87\xa2\xd9\0\x03\xed\xa0\x80\x80\x40\
        \x04name\x06\0dg\x80\x40";
    let (status, _, err) = dump(&[], &component(section));
    assert!(err.contains(": bad item 0 at 0xb in the section at 0x8: "), "{err}");
    assert_eq!((status, err.lines().count()), (1, 1), "{err}");
}

/// A section with bytes more or less, after which no section begins: the rest is printed from an
/// offset at which sections reach the end.
#[test]
fn sections_may_have_another_size() {
    let import = &b"\x0a\x06\x01\0\x01f\x01\0"[..];
    // a function type, and a record with two fields; other bytes in place of some of theirs
    let function = &b"\x07\x05\x01\x40\0\x01\0"[..];
    let record = b"\x07\x09\x01\x72\x02\x01a\x7f\x01b\x7f";
    for (section, place, by, words) in [
        (function, 2..2, &b"\x55"[..], "1 byte longer"),
        (function, 6..6, b"\x55\x55\x55", "3 bytes longer"),
        (record, 6..7, b"", "1 byte shorter"),
        (record, 5..7, b"", "2 bytes shorter"),
    ] {
        let sections = [&section[..place.start], by, &section[place.end..], import].concat();
        let (status, out, err) = dump(&[], &component(&sections));
        assert_eq!(
            (status, err),
            (1, format!("wenc-dump: -: the section at 0x8 may be {words}\n"))
        );
        assert_eq!(out.matches(" import \"f\" Func(0)\n").count(), 1, "{out}");
    }
}

/// Most insertions and removals of a byte are reported in one line.
#[test]
fn most_sizes_are_mended() {
    let mut lines = Vec::new();
    let is_small = |bytes: &Vec<u8>| bytes.len() <= 1_500 && wenc::list(bytes).is_ok();
    for bytes in components().filter(is_small) {
        for at in (8..bytes.len()).step_by(7) {
            let (mut longer, mut shorter) = (bytes.clone(), bytes.clone());
            longer.insert(at, 0x55);
            shorter.remove(at);
            for bytes in [longer, shorter] {
                lines.push(dump(&[], &bytes).2.lines().count());
            }
        }
    }
    lines.sort_unstable();
    assert_eq!(lines[lines.len() / 2], 1, "{}", lines.len());
    assert!(lines[lines.len() - 1] < 100, "{lines:?}");
}

/// A file of a megabyte in which nearly each section can't be read is printed in a second or so.
#[test]
fn many_faults_are_told_at_once() {
    let bytes = component(&b"\x06\x02\x01\x09".repeat(1 << 18));
    for options in [&[][..], &["--json"], &["--check"]] {
        let (status, _, err) = dump(options, &bytes);
        assert_eq!((status, err.lines().count()), (1, 1 << 18));
    }
}
