//! Indices that are out of range, with `--check`.

use crate::corpus::components;
use crate::json_value::Value;
use crate::{FUNCTION, FUNCTION_TEXT, component, dump, expect, expect_of};

/// A type, and items with indices that are out of range.
fn sections() -> Vec<u8> {
    // an instance type with a list of its type 1, an outer alias of type 1, one of type 0 two
    // further out, and an export of its type 2, which the second alias defines
    let ty = b"\x07\x17\x01\x42\x04\x01\x70\x01\x02\x03\x02\x01\x01\
        \x02\x03\x02\x02\0\x04\0\x01e\x03\0\x02";
    // a component with an outer alias of type 1, and one of component 0, which it is itself
    let inner = component(b"\x06\x09\x02\x03\x02\x01\x01\x04\x02\x01\0");
    let nested = [&[4, 19][..], &inner].concat();
    let import = b"\x0a\x06\x01\0\x01g\x01\x63";
    [FUNCTION, ty, &nested, import].concat()
}

const TEXT: &str = "\
0x0..0x4d component, 77 bytes
  0x8..0xf type section, 7 bytes, 1 item
    0xb type 0: Func { is_async: false, params: [], result: None }
  0xf..0x17 import section, 8 bytes, 1 item
    0x12 func 0: import \"f\" Func(0)
  0x17..0x30 type section, 25 bytes, 1 item
    0x1a type 1: Instance([
      Type(Defined(List(Type(1)!))),
      Alias(Outer { kind: Type, count: 1, index: 1! }),
      Alias(Outer { kind: Type, count: 2, index: 0! }),
      Export { name: \"e\", ty: Type(Eq(2)) },
    ])
      0x1a no type 1: type space of the type has 0
      0x1a no type 1: type space has 1
      0x1a no type 0: type space of the component around has 0
  0x30..0x45 component section, 21 bytes, 1 item
    0x32..0x45 component 0, 19 bytes
      0x3a..0x45 alias section, 11 bytes, 2 items
        0x3d type 0: Outer { kind: Type, count: 1, index: 1 }
        0x41 component 0: Outer { kind: Component, count: 1, index: 0! }
          0x41 no component 0: component space of the component around has 0
  0x45..0x4d import section, 8 bytes, 1 item
    0x48 func 1: import \"g\" Func(99)!
      0x48 no type 99: type space has 2
";

#[test]
fn indices_out_of_range_are_marked() {
    let bytes = component(&sections());
    expect_of(&["--check"], &bytes, TEXT, "5 indices are out of range");
    let lines = TEXT.lines().filter(|line| !line.contains(": type space"));
    let lines = lines.filter(|line| !line.contains(": component space"));
    let plain: String = lines.map(|line| line.replace('!', "") + "\n").collect();
    assert_eq!(plain.lines().count() + 5, TEXT.lines().count());
    expect(&sections(), &plain, "");
}

#[test]
fn one_index_and_none() {
    let import = b"\x0a\x06\x01\0\x01g\x01\x01";
    let (status, _, err) = dump(&["--check"], &component(&[FUNCTION, import].concat()));
    assert_eq!((status, err.as_str()), (1, "wenc-dump: -: 1 index is out of range\n"));
    expect_of(&["--check"], &component(FUNCTION), FUNCTION_TEXT, "");
}

#[test]
fn json_has_them_at_their_items() {
    let (status, json, _) = dump(&["--check", "--json"], &component(&sections()));
    for item in [
        "\"out_of_range\":[\
         {\"space\":\"type\",\"type\":1,\"index\":1,\"count\":0},\
         {\"space\":\"type\",\"component\":0,\"index\":1,\"count\":1},\
         {\"space\":\"type\",\"component\":1,\"index\":0,\"count\":0}]}",
        "\"out_of_range\":[{\"space\":\"component\",\"component\":1,\"index\":0,\"count\":0}]}",
        "\"item\":{\"name\":{\"name\":\"g\",\"options\":null},\"ty\":{\"Func\":99}},\
         \"out_of_range\":[{\"space\":\"type\",\"component\":0,\"index\":99,\"count\":2}]}",
    ] {
        assert_eq!(json.matches(item).count(), 1, "{item} in {json}");
    }
    let fault = Value::read(&json);
    let fault = fault.at("fault");
    assert_eq!(fault.at("message").text(), "5 indices are out of range");
    assert_eq!((fault.at("place"), status), (&Value::Null, 1));
    let (status, json, _) = dump(&["--json"], &component(&sections()));
    assert!(status == 0 && !json.contains("out_of_range\":"), "{json}");
}

/// After an item that can't be read, indices aren't checked, except for those in other scopes.
#[test]
fn indices_after_a_fault_are_not_marked() {
    let bad = b"\x07\x02\x01\x01";
    let import = b"\x0a\x06\x01\0\x01g\x01\x63";
    let ty = b"\x07\x06\x01\x42\x01\x01\x70\x05";
    let (_, out, err) = dump(&["--check"], &component(&[&bad[..], import, ty].concat()));
    assert!(out.contains("import \"g\" Func(99)\n"), "{out}");
    assert!(out.contains("Instance([Type(Defined(List(Type(5)!)))])\n"), "{out}");
    assert!(err.contains(": 1 index is out of range\n"), "{err}");
}

/// No index of a real component is out of range.
#[test]
fn real_components_have_none() {
    let mut whole = 0;
    for bytes in components() {
        let checked = dump(&["--check"], &bytes);
        assert!(dump(&[], &bytes) == checked, "{}", checked.2);
        whole += u32::from(checked.0 == 0);
    }
    assert_eq!(whole, 40);
}

/// Each type of a recursion group has an index, in a component, in one that is nested in it, and
/// for debug names.
#[test]
fn types_of_recursion_groups() {
    // a group of three types and a type; functions of core types 3 and 4
    let types = b"\x03\x0f\x02\x4e\x03\x60\0\0\x5f\0\x5e\x7f\0\x60\x01\x7f\0";
    let functions = b"\x08\x05\x02\x40\x03\x40\x04";
    // the same types, and aliases of core types 3 and 4 around them
    let inner =
        component(&[&types[..], b"\x06\x0b\x02\0\x10\x02\x01\x03\0\x10\x02\x01\x04"].concat());
    let nested = [&[4, 38][..], &inner].concat();
    let names = b"\0\x1a\x0ecomponent-name\x01\x09\0\x10\x02\0\x01a\x03\x01b";
    let sections = [&types[..], functions, &nested, names].concat();
    expect_of(&["--check"], &component(&sections), GROUPS, "2 indices are out of range");
}

const GROUPS: &str = "\
0x0..0x64 component, 100 bytes
  0x8..0x19 core type section, 17 bytes, 2 items
    0xb core type 0 to 2 \"a\": Group(Rec([
      { is_final: true, supertype_idx: None, composite_type: Func { params: [], results: [] } },
      { is_final: true, supertype_idx: None, composite_type: Struct { fields: [] } },
      {
        is_final: true,
        supertype_idx: None,
        composite_type: Array { element_type: Val(I32), mutable: false },
      },
    ]))
    0x15 core type 3 \"b\": Group(Sub {
      is_final: true,
      supertype_idx: None,
      composite_type: Func { params: [I32], results: [] },
    })
  0x19..0x20 canonical function section, 7 bytes, 2 items
    0x1c core func 0: ThreadSpawnRef(3) \"b\"
    0x1e core func 1: ThreadSpawnRef(4)!
      0x1e no core type 4: core type space has 4
  0x20..0x48 component section, 40 bytes, 1 item
    0x22..0x48 component 0, 38 bytes
      0x2a..0x3b core type section, 17 bytes, 2 items
        0x2d core type 0 to 2: Group(Rec([
          { is_final: true, supertype_idx: None, composite_type: Func { params: [], results: [] } },
          { is_final: true, supertype_idx: None, composite_type: Struct { fields: [] } },
          {
            is_final: true,
            supertype_idx: None,
            composite_type: Array { element_type: Val(I32), mutable: false },
          },
        ]))
        0x37 core type 3: Group(Sub {
          is_final: true,
          supertype_idx: None,
          composite_type: Func { params: [I32], results: [] },
        })
      0x3b..0x48 alias section, 13 bytes, 2 items
        0x3e core type 4: Outer { kind: CoreType, count: 1, index: 3 \"b\" }
        0x43 core type 5: Outer { kind: CoreType, count: 1, index: 4! }
          0x43 no core type 4: core type space of the component around has 4
  0x48..0x64 custom section, 28 bytes, 1 item
    0x4a custom \"component-name\", 11 bytes
      core type 0 \"a\"
      core type 3 \"b\"
";
