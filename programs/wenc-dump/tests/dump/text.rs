//! Text of worked components and core modules.

use crate::{FUNCTION, FUNCTION_TEXT, component, expect, expect_of, run};
use wenc_dump::{Terminal, colours_are_wanted};

#[test]
fn sections_and_items() {
    expect(FUNCTION, FUNCTION_TEXT, "");
    let out = "\
0x0..0x27 component, 39 bytes
  0x8..0xb alias section, 3 bytes, 0 items
  0xb..0x10 start section, 5 bytes, 1 item
    0xd no value: start of 7 with []
  0x10..0x16 start section, 6 bytes, 1 item
    0x12 value 0 to 1: start of 0 with [3]
  0x16..0x27 export section, 17 bytes, 2 items
    0x19 value 2: export \"v\" Value 0
    0x1f value 3: export \"\\u{1b}\" Value 1 as Value(Primitive(U8))
";
    let sections = b"\x06\x01\0\x09\x03\x07\0\0\x09\x04\0\x01\x03\x02\
        \x0b\x0f\x02\0\x01v\x02\0\0\0\x01\x1b\x02\x01\x01\x02\x7d";
    expect(sections, out, "");
}

/// `f` is `g`, and its type is `t`.
const NAMES: &[u8] =
    b"\0\x21\x0ecomponent-name\0\x02\x01c\x01\x05\x01\x01\0\x01g\x01\x05\x03\x01\0\x01t";

#[test]
fn debug_names() {
    let out = "\
0x0..0x3a component \"c\", 58 bytes
  0x8..0xf type section, 7 bytes, 1 item
    0xb type 0 \"t\": Func { is_async: false, params: [], result: None }
  0xf..0x17 import section, 8 bytes, 1 item
    0x12 func 0 \"g\": import \"f\" Func(0) \"t\"
  0x17..0x3a custom section, 35 bytes, 1 item
    0x19 custom \"component-name\", 18 bytes
      component \"c\"
      func 0 \"g\"
      type 0 \"t\"
";
    expect(&[FUNCTION, NAMES].concat(), out, "");
    // Another subsection, and after it what is none.
    let names = b"\0\x1f\x0ecomponent-name\x01\x05\x01\x01\0\x01g\x09\x02ab\x01\x03\x01\x01\0";
    let out = "\
0x0..0x38 component, 56 bytes
  0x8..0xf type section, 7 bytes, 1 item
    0xb type 0: Func { is_async: false, params: [], result: None }
  0xf..0x17 import section, 8 bytes, 1 item
    0x12 func 0 \"g\": import \"f\" Func(0)
  0x17..0x38 custom section, 33 bytes, 1 item
    0x19 custom \"component-name\", 16 bytes
      func 0 \"g\"
      0x33 names that aren't read
        0x33: 01 03 01 01 00
";
    let bad = "bad debug names at 0x33: the bytes end at 0x38";
    expect(&[FUNCTION, names].concat(), out, bad);
}

/// The names of the component and of the one around it, where an index is one of theirs.
#[test]
fn names_of_what_indices_refer_to() {
    // an instance type with a type, an outer alias of `t` and an export of its own type 0; then a
    // component that aliases `t` and has a type of its own without a name
    let ty = b"\x07\x11\x01\x42\x03\x01\x70\0\x02\x03\x02\x01\0\x04\0\x01e\x01\0";
    let inner = component(b"\x06\x05\x01\x03\x02\x01\0\x07\x03\x01\x69\0");
    let nested = [&[4, 20][..], &inner].concat();
    let sections = [FUNCTION, ty, &nested, NAMES].concat();
    let out = "\
0x0..0x63 component \"c\", 99 bytes
  0x8..0xf type section, 7 bytes, 1 item
    0xb type 0 \"t\": Func { is_async: false, params: [], result: None }
  0xf..0x17 import section, 8 bytes, 1 item
    0x12 func 0 \"g\": import \"f\" Func(0) \"t\"
  0x17..0x2a type section, 19 bytes, 1 item
    0x1a type 1: Instance([
      Type(Defined(List(Type(0)))),
      Alias(Outer { kind: Type, count: 1, index: 0 \"t\" }),
      Export { name: \"e\", ty: Func(0) },
    ])
  0x2a..0x40 component section, 22 bytes, 1 item
    0x2c..0x40 component 0, 20 bytes
      0x34..0x3b alias section, 7 bytes, 1 item
        0x37 type 0: Outer { kind: Type, count: 1, index: 0 \"t\" }
      0x3b..0x40 type section, 5 bytes, 1 item
        0x3e type 1: Defined(Own(0))
  0x40..0x63 custom section, 35 bytes, 1 item
    0x42 custom \"component-name\", 18 bytes
      component \"c\"
      func 0 \"g\"
      type 0 \"t\"
";
    expect(&sections, out, "");
}

#[test]
fn a_long_name_after_an_index_is_cut() {
    let long = "é".repeat(100);
    let front = b"\0\xdf\x01\x0ecomponent-name\x01\xcd\x01\x03\x01\0\xc8\x01";
    let custom = [front, long.as_bytes()].concat();
    let out = format!(
        "\
0x0..0xf9 component, 249 bytes
  0x8..0xf type section, 7 bytes, 1 item
    0xb type 0 \"{long}\": Func {{
      is_async: false,
      params: [],
      result: None,
    }}
  0xf..0x17 import section, 8 bytes, 1 item
    0x12 func 0: import \"f\" Func(0) \"{}\"...
  0x17..0xf9 custom section, 226 bytes, 1 item
    0x1a custom \"component-name\", 208 bytes
      type 0 \"{long}\"
",
        "é".repeat(80)
    );
    expect(&[FUNCTION, &custom].concat(), &out, "");
}

#[test]
fn modules_and_nested_components() {
    let module = b"\x01\x0f\0asm\x01\0\0\0\x01\x01\0\x0c\x80\x00\x0b";
    let nested = b"\x04\x0b\0asm\x0d\0\x01\0\x06\x01\0\x01\x01\x07";
    let out = "\
0x0..0x29 component, 41 bytes
  0x8..0x19 core module section, 17 bytes, 1 item
    0xa..0x19 core module 0, 15 bytes
      0x12..0x15 type section, 3 bytes, 0 items
      0x15..0x18 data count section, 3 bytes
        0x18 no count
      0x18 no core section
        0x18: 0b
  0x19..0x26 component section, 13 bytes, 1 item
    0x1b..0x26 component 0, 11 bytes
      0x23..0x26 alias section, 3 bytes, 0 items
  0x26..0x29 core module section, 3 bytes, 1 item
    0x28..0x29 core module 1, 1 byte
      0x28 no core module's header
        0x28: 07
";
    let bad = "\
bad count at 0x18: the bytes end at 0x18
bad core section at 0x18: the bytes end at 0x19
no core module's header at 0x28: found other bytes: 07";
    expect(&[&module[..], nested].concat(), out, bad);
}

/// What is printed of a module with sections of all kinds.
const CORE_TEXT: &str = "\
0x0..0x4c core module, 76 bytes
  0x8..0xd custom section \"x\", 5 bytes
  0xd..0x13 type section, 6 bytes, 1 item
  0x13..0x38 import section, 37 bytes, 5 items
    0x16 core func 0: import \"m\" \"f\" Function(0)
    0x1c core table 0: import \"m\" \"\" Table {
      element_type: { nullable: true, heap_type: Abstract(Func) },
      table64: false,
      minimum: 1,
      maximum: None,
    }
    0x23 core memory 0: import \"\" \"n\" Memory {
      minimum: 1,
      maximum: Some(2),
      memory64: false,
      shared: false,
    }
    0x2a core global 0: import \"m\" \"g\" Global { val_type: I32, mutable: false }
    0x31 core tag 0: import \"m\" \"t\" Tag { func_type_idx: 0 }
  0x38..0x43 export section, 11 bytes, 2 items
    0x3b export \"f\" Func 0
    0x3f export \"g\" Global 0
  0x43..0x46 start section, 3 bytes, 1 item
    0x45 start of 7
  0x46..0x49 data count section, 3 bytes, 2 items
  0x49..0x4c section 14, 3 bytes
    0x49 unknown section
      0x49: 0e 01 02
";

/// Sections of all ids, of a module that is by itself.
#[test]
fn core_modules() {
    let module = b"\0asm\x01\0\0\0\
        \0\x03\x01x\x07\
        \x01\x04\x01\x60\0\0\
        \x02\x23\x05\x01m\x01f\0\0\x01m\0\x01\x70\0\x01\0\x01n\x02\x01\x01\x02\x01m\x01g\x03\x7f\0\
        \x01m\x01t\x04\0\0\
        \x07\x09\x02\x01f\0\0\x01g\x03\0\
        \x08\x01\x07\
        \x0c\x01\x02\
        \x0e\x01\x02";
    let bad = "unknown section 14 at 0x49";
    expect_of(&[], module, CORE_TEXT, bad);
}

/// A section with this type.
fn type_section(ty: &[u8]) -> Vec<u8> {
    let size = u8::try_from(ty.len() + 1).expect("it is small");
    [&[7, size, 1][..], ty].concat()
}

#[test]
fn a_group_without_room_in_100_columns_is_folded() {
    let enumeration = |len: u8| {
        let letters = "a".repeat(len.into());
        type_section(&[&[0x6d, 1, len][..], letters.as_bytes()].concat())
    };
    let letters = "a".repeat(65);
    let line = format!("    0xb type 0: Defined(Enum([\"{letters}\"]))\n");
    assert_eq!(line.len(), 100 + "\n".len());
    let out = "\
0x0..0x4f component, 79 bytes
  0x8..0x4f type section, 71 bytes, 1 item
";
    expect(&enumeration(65), &format!("{out}{line}"), "");
    let out = out.replace("4f", "50").replace("79", "80").replace("71", "72");
    let lines = format!("    0xb type 0: Defined(Enum([\n      \"a{letters}\",\n    ]))\n");
    expect(&enumeration(66), &format!("{out}{lines}"), "");
}

/// A variant with the case `b`, and one with a name of this length.
fn variant(len: u8) -> Vec<u8> {
    let letters = "a".repeat(len.into());
    type_section(&[&[0x71, 2, len], letters.as_bytes(), b"\0\0\x01b\0\0"].concat())
}

/// The comma after a member counts.
#[test]
fn a_member_without_room_in_100_columns_is_folded() {
    let letters = "a".repeat(71);
    let line = format!("      {{ name: \"{letters}\", ty: None }},\n");
    assert_eq!(line.len(), 100 + "\n".len());
    let front = "\
0x0..0x5b component, 91 bytes
  0x8..0x5b type section, 83 bytes, 1 item
    0xb type 0: Defined(Variant([
";
    let back = "      { name: \"b\", ty: None },\n    ]))\n";
    expect(&variant(71), &format!("{front}{line}{back}"), "");
    let front = front.replace("5b", "5c").replace("91", "92").replace("83", "84");
    let lines = format!("      {{\n        name: \"a{letters}\",\n        ty: None,\n      }},\n");
    expect(&variant(72), &format!("{front}{lines}{back}"), "");
}

/// What the program prints of the component with these sections, and its status.
fn printed(sections: &[u8], options: &[&str], has_colours: bool) -> (String, u8) {
    let terminal = Terminal { has_colours, columns: None };
    let (status, out, _) = run(&[options, &["-"]].concat(), &component(sections), terminal);
    (out, status)
}

/// Names and texts have a colour, the dots after a name that is cut have none.
#[test]
fn names_texts_and_places_have_colours() {
    let (long, cut) = ("n".repeat(81), "n".repeat(80));
    let types = b"\x07\x0a\x02\x69\0\x6d\x02\x01a\x02bc";
    let names = [b"\0\x66\x0ecomponent-name\x01\x55\x03\x01\0\x51", long.as_bytes()].concat();
    let (out, status) = printed(&[types, &names[..], b"\x06\x05\x01"].concat(), &[], true);
    let expected = format!(
        "\
\x1b[2m0x0..0x7f\x1b[0m component, 127 bytes
  \x1b[2m0x8..0x14\x1b[0m type section, 12 bytes, 2 items
    \x1b[2m0xb\x1b[0m \x1b[36mtype 0\x1b[0m \x1b[32m\"{long}\"\x1b[0m: \
    Defined(Own(0) \x1b[32m\"{cut}\"\x1b[0m...)
    \x1b[2m0xd\x1b[0m \x1b[36mtype 1\x1b[0m: \
    Defined(Enum([\x1b[32m\"a\"\x1b[0m, \x1b[32m\"bc\"\x1b[0m]))
  \x1b[2m0x14..0x7c\x1b[0m custom section, 104 bytes, 1 item
    \x1b[2m0x16\x1b[0m custom \x1b[32m\"component-name\"\x1b[0m, 87 bytes
      \x1b[36mtype 0\x1b[0m \x1b[32m\"{long}\"\x1b[0m
  \x1b[2m0x7c\x1b[0m no section
    \x1b[2m0x7c:\x1b[0m 06 05 01
"
    );
    assert_eq!((out, status), (expected, 1));
    let (out, _) = printed(FUNCTION, &["-x"], true);
    assert!(out.contains("\n      \x1b[2m0x12:\x1b[0m 00 01 66 01 00\n"), "{out}");
}

/// The columns of a line are those without its colours.
#[test]
fn colours_take_no_columns() {
    for sections in [variant(71), variant(72), [FUNCTION, NAMES].concat()] {
        let (plain, status) = printed(&sections, &["-x"], false);
        let (coloured, _) = printed(&sections, &["-x"], true);
        assert_ne!(coloured, plain);
        let codes = ["\x1b[2m", "\x1b[32m", "\x1b[36m", "\x1b[0m"];
        let without = codes.iter().fold(coloured, |text, code| text.replace(code, ""));
        assert_eq!((without, status), (plain, 0));
    }
}

#[test]
fn no_color_and_dumb_terminals_have_none() {
    let wanted = |is_terminal, no_color: Option<&str>, term: Option<&str>| {
        colours_are_wanted(is_terminal, no_color.map(str::as_ref), term.map(str::as_ref))
    };
    assert!(wanted(true, None, None) && wanted(true, Some(""), Some("xterm")));
    assert!(!wanted(false, None, None) && !wanted(false, None, Some("xterm")));
    assert!(!wanted(true, Some("1"), Some("xterm")) && !wanted(true, Some("0"), None));
    assert!(!wanted(true, None, Some("dumb")) && !wanted(true, Some(""), Some("dumb")));
}
