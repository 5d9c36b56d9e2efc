//! What custom sections contain.

use crate::{component, dump, expect, expect_of};

/// A section with the producers `C` and `Rust`, the second with a version.
const PRODUCERS: &[u8] = b"\0\x22\x09producers\x01\x08language\x02\x01C\0\x04Rust\x042024";

#[test]
fn producers() {
    let out = "\
0x0..0x2c component, 44 bytes
  0x8..0x2c custom section, 36 bytes, 1 item
    0xa custom \"producers\", 24 bytes
      \"language\" \"C\" \"\"
      \"language\" \"Rust\" \"2024\"
";
    expect(PRODUCERS, out, "");
    let out = "\
0x0..0x2c core module, 44 bytes
  0x8..0x2c custom section \"producers\", 36 bytes
    \"language\" \"C\" \"\"
    \"language\" \"Rust\" \"2024\"
";
    expect_of(&[], &[b"\0asm\x01\0\0\0", PRODUCERS].concat(), out, "");
}

#[test]
fn producers_in_json() {
    let listed = "\"producers\":[\
        {\"field\":\"language\",\"name\":\"C\",\"version\":\"\"},\
        {\"field\":\"language\",\"name\":\"Rust\",\"version\":\"2024\"}],\"unread\":null}";
    let out = format!(
        "{{\"version\":1,\"file\":\"-\",\"component\":\
        {{\"start\":0,\"end\":44,\"name\":null,\"sections\":[\
        {{\"start\":8,\"end\":44,\"id\":0,\"kind\":\"custom\",\"count\":1,\"items\":[\
        {{\"start\":10,\"end\":44,\"space\":null,\"index\":null,\"count\":0,\"name\":null,\
        \"item\":{{\"name\":\"producers\",\"size\":24,{listed}}}]}}]}},\"fault\":null}}\n"
    );
    expect_of(&["--json"], &component(PRODUCERS), &out, "");
    let out = format!(
        "{{\"version\":1,\"file\":\"-\",\"module\":{{\"start\":0,\"end\":44,\"sections\":[\
        {{\"start\":8,\"end\":44,\"id\":0,\"kind\":\"custom\",\"name\":\"producers\",\
        \"count\":null,\"items\":[],{listed}],\"unread\":null}},\"fault\":null}}\n"
    );
    expect_of(&["--json"], &[b"\0asm\x01\0\0\0", PRODUCERS].concat(), &out, "");
}

/// Parts before a fault are printed.
#[test]
fn bad_producers_are_a_fault() {
    let mut bytes = PRODUCERS.to_vec();
    bytes[29] = 0xff;
    let out = "\
0x0..0x2c component, 44 bytes
  0x8..0x2c custom section, 36 bytes, 1 item
    0xa custom \"producers\", 24 bytes
      \"language\" \"C\" \"\"
      0x22 producers that aren't read
        0x22: 04 52 75 ff 74 04 32 30 32 34
";
    expect(&bytes, out, "bad producers at 0x22: 0xff at 0x25 isn't UTF-8");
}

/// Bytes that aren't read are printed in hexadecimal: once, and to the end of the section.
#[test]
fn unread_bytes_are_printed() {
    // two imports, the first of an unknown kind; then a custom section without a name
    let sections = b"\x0a\x1b\x02\0\x01f\x09\0\0\x11abcdefghijklmnopq\x01\0\0\x02\x07a";
    let front = "\
0x0..0x29 component, 41 bytes
  0x8..0x25 import section, 29 bytes, 2 items
    0xb items that aren't read
";
    let back = "  0x25..0x29 custom section, 4 bytes, 1 item
    0x25 no name
      0x25: 00 02 07 61
";
    let bad = "\
bad item 0 at 0xb in the section at 0x8: 0x09 at 0xe, where 0x00 to 0x05 is expected
custom section without a name at 0x25: needs 7 bytes or more from 0x28 on, where 1 is left";
    let line = "      0xb: 00 01 66 09 00 00 11 61 62 63 64 65 66 67 68 69";
    let bytes = component(sections);
    expect_of(&[], &bytes, &format!("{front}{line} ...\n{back}"), bad);
    let rest = "      0x1b: 6a 6b 6c 6d 6e 6f 70 71 01 00\n";
    expect_of(&["-x"], &bytes, &format!("{front}{line}\n{rest}{back}"), bad);
    let (_, json, _) = dump(&["--json", "-x"], &bytes);
    let hex = "\"unread\":11,\"unread_hex\":\"00016609000011616263646566676869\
        6a6b6c6d6e6f70710100\"}";
    assert!(json.contains(hex), "{json}");
}
