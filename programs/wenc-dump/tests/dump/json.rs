//! JSON of worked components and core modules.

use crate::json_value::Value;
use crate::{FUNCTION, PROGRAM, component, dump, file, file_of, start};
use std::path::Path;
use std::process::Command;

/// Checks the JSON of these bytes, after the name of the file, and the exit status.
fn expect(options: &[&str], bytes: &[u8], status: u8, json: &str) {
    let (is, out, _) = dump(&[&["--json"], options].concat(), bytes);
    assert_eq!(
        (out.as_str(), is),
        (&*format!("{{\"version\":1,\"file\":\"-\",{json}}}\n"), status)
    );
    Value::read(&out);
}

#[test]
fn sections_and_items() {
    let out = "\"component\":{\"start\":0,\"end\":23,\"name\":null,\"sections\":[\
        {\"start\":8,\"end\":15,\"id\":7,\"kind\":\"type\",\"count\":1,\"items\":[\
        {\"start\":11,\"end\":15,\"space\":\"type\",\"index\":0,\"count\":1,\"name\":null,\"item\":\
        {\"Func\":{\"is_async\":false,\"params\":[],\"result\":null}}}]},\
        {\"start\":15,\"end\":23,\"id\":10,\"kind\":\"import\",\"count\":1,\"items\":[\
        {\"start\":18,\"end\":23,\"space\":\"func\",\"index\":0,\"count\":1,\"name\":null,\"item\":\
        {\"name\":{\"name\":\"f\",\"options\":null},\"ty\":{\"Func\":0}}}]}]},\"fault\":null";
    let bytes = component(FUNCTION);
    expect(&[], &bytes, 0, out);
    let out = out.replace(
        "\"name\":null,\"item\":{\"Func\"",
        "\"name\":null,\"hex\":\"40000100\",\"item\":{\"Func\"",
    );
    let out = out.replace(
        "\"name\":null,\"item\":{\"name\"",
        "\"name\":null,\"hex\":\"0001660100\",\"item\":{\"name\"",
    );
    expect(&["--hex"], &bytes, 0, &out);
}

#[test]
fn items_are_as_serde_would_write_them() {
    let sections = b"\x09\x04\0\x01\x03\x02\
        \x06\x07\x01\0\0\x01\x02\x01a\
        \x08\x0a\x02\0\0\x05\x02\0\x03\x01\x02\x05\
        \x0b\x0e\x01\x02\x01v\x01\x02\x02id\x01\0\x01\x01\x07\
        \x07\x09\x02\x72\x01\x01a\x79\x3f\x7f\0\
        \x03\x09\x01\x50\x01\x03\x01m\x02\0\x01\
        \x03\x05\x01\x60\x01\x7f\0\
        \x07\x0c\x01\x41\x02\x03\0\x01m\x01\0\x01\x70\x7d";
    let expected = [
        r#"{"function":0,"args":[3],"results":2}"#,
        r#"{"CoreInstanceExport":{"instance":2,"kind":"Func","name":"a"}}"#,
        r#"{"Lift":{"core_func":5,"ty":2,"options":["UTF8",{"Memory":1}]}}"#,
        r#""TaskCancel""#,
        r#"{"name":{"name":"v","options":{"implements":null,"version_suffix":null,"#,
        r#"{"Defined":{"Record":[["a",{"Primitive":"U32"}]]}}"#,
        r#"{"Resource":{"rep":"I32","dtor":null}}"#,
        r#"{"Module":[{"Export":{"name":"m","ty":{"Memory":{"minimum":1,"maximum":null,"#,
        r#"{"Group":{"Sub":{"is_final":true,"supertype_idx":null,"composite_type":{"Func":"#,
        r#"{"Component":[{"Import":{"name":{"name":"m","options":null},"ty":{"Func":0}}},"#,
    ];
    let (_, out, _) = dump(&["--json"], &component(sections));
    let items: Vec<&str> = out.split("\"item\":").skip(1).collect();
    assert_eq!(items.len(), expected.len());
    for (is, expected) in items.iter().zip(expected) {
        assert!(is.starts_with(expected), "{is}");
    }
    let end = r#""external_id":"id"}},"kind":"Func","index":0,"ty":{"Func":7}}}"#;
    assert!(items[4].contains(end), "{out}");
    assert!(items[7].contains(r#""memory64":false,"shared":false}}}}]}"#), "{out}");
    assert!(items[8].contains(r#"{"Func":{"params":["I32"],"results":[]}}}}}"#), "{out}");
    let declared = r#",{"Decl":{"Type":{"Defined":{"List":{"Primitive":"U8"}}}}}]}"#;
    assert!(items[9].contains(declared), "{out}");
    Value::read(&out);
}

#[test]
fn debug_names_custom_sections_and_nested_components() {
    let names = b"\0\x1d\x0ecomponent-name\0\x02\x01c\x01\x05\x04\x01\0\x01n\x01\x01\x09";
    let nested = b"\x04\x0b\0asm\x0d\0\x01\0\x06\x01\0";
    let out = "\"component\":{\"start\":0,\"end\":52,\"name\":\"c\",\"sections\":[\
        {\"start\":8,\"end\":21,\"id\":4,\"kind\":\"component\",\"count\":1,\"items\":[\
        {\"start\":10,\"end\":21,\"space\":\"component\",\"index\":0,\"count\":1,\"name\":\"n\",\
        \"item\":{\"start\":10,\"end\":21,\"name\":null,\"sections\":[\
        {\"start\":18,\"end\":21,\"id\":6,\"kind\":\"alias\",\"count\":0,\"items\":[]}]}}]},\
        {\"start\":21,\"end\":52,\"id\":0,\"kind\":\"custom\",\"count\":1,\"items\":[\
        {\"start\":23,\"end\":52,\"space\":null,\"index\":null,\"count\":0,\"name\":null,\"item\":\
        {\"name\":\"component-name\",\"size\":14,\"names\":[\
        {\"space\":null,\"index\":null,\"name\":\"c\"},\
        {\"space\":\"component\",\"index\":0,\"name\":\"n\"}],\"unread\":49}}]}]},\
        \"fault\":{\"place\":49,\"message\":\"bad debug names at 0x31: \
        0x09 at 0x33, where 0x00 to 0x05 is expected\",\"cause\":{\"place\":51,\
        \"message\":\"0x09 at 0x33, where 0x00 to 0x05 is expected\"}}";
    expect(&[], &component(&[&nested[..], names].concat()), 1, out);
}

#[test]
fn core_modules() {
    let module = b"\0asm\x01\0\0\0\0\x03\x01x\x07\x07\x05\x01\x01f\0\x02\x0e\0";
    let section = "\"module\":{\"start\":0,\"end\":22,\"sections\":[\
        {\"start\":8,\"end\":13,\"id\":0,\"kind\":\"custom\",\"name\":\"x\",\"count\":null,\
        \"items\":[],\"unread\":null},\
        {\"start\":13,\"end\":20,\"id\":7,\"kind\":\"export\",\"name\":null,\"count\":1,\"items\":[\
        {\"start\":16,\"end\":20,\"space\":null,\"index\":null,\"count\":0,\"name\":null,\"item\":\
        {\"name\":\"f\",\"kind\":\"Func\",\"index\":2}}],\"unread\":null},\
        {\"start\":20,\"end\":22,\"id\":14,\"kind\":null,\"name\":null,\"count\":null,\
        \"items\":[],\"unread\":20}],\"unread\":null},\
        \"fault\":{\"place\":20,\"message\":\"unknown section 14 at 0x14\"}";
    expect(&[], module, 1, section);
    // a module in a component, with entries and with bytes that aren't read
    let sections = b"\x01\x0e\0asm\x01\0\0\0\x02\x02\x01\x01\x01\x02";
    let out = "\"component\":{\"start\":0,\"end\":24,\"name\":null,\"sections\":[\
        {\"start\":8,\"end\":24,\"id\":1,\"kind\":\"core module\",\"count\":1,\"items\":[\
        {\"start\":10,\"end\":24,\"space\":\"core module\",\"index\":0,\"count\":1,\"name\":null,\
        \"item\":{\"start\":10,\"end\":24,\"sections\":[\
        {\"start\":18,\"end\":22,\"id\":2,\"kind\":\"import\",\"name\":null,\"count\":1,\
        \"items\":[],\"unread\":21}],\"unread\":22}}]}]},\
        \"fault\":{\"place\":21,\"message\":\"bad item 0 at 0x15: \
        the bytes end at 0x16\",\"cause\":{\"place\":22,\
        \"message\":\"the bytes end at 0x16\"}}";
    expect(&[], &component(sections), 1, out);
}

/// All open parts are closed before a fault.
#[test]
fn faults() {
    let nested = b"\x04\x0c\0asm\x0d\0\x01\0\x06\x02\x01\x09";
    let out = "\"component\":{\"start\":0,\"end\":22,\"name\":null,\"sections\":[\
        {\"start\":8,\"end\":22,\"id\":4,\"kind\":\"component\",\"count\":1,\"items\":[\
        {\"start\":10,\"end\":22,\"space\":\"component\",\"index\":0,\"count\":1,\"name\":null,\
        \"item\":{\"start\":10,\"end\":22,\"name\":null,\"sections\":[\
        {\"start\":18,\"end\":22,\"id\":6,\"kind\":\"alias\",\"count\":1,\"items\":[],\
        \"unread\":21}]}}]}]},\
        \"fault\":{\"place\":21,\"message\":\"bad item 0 at 0x15 in the section at 0x12: 0x09 \
        where an alias is expected\",\"cause\":{\"place\":21,\
        \"message\":\"0x09 at 0x15, where 0x00 to 0x05 is expected\"}}";
    expect(&[], &component(nested), 1, out);
    let out = "\"fault\":{\"place\":0,\"message\":\"no component's header at 0x0: \
        found an empty file\"}";
    expect(&[], b"", 1, out);
    let out = "\"module\":{\"start\":0,\"end\":9,\"sections\":[],\"unread\":8},\
        \"fault\":{\"place\":8,\"message\":\"bad core section at 0x8: \
        the bytes end at 0x9\",\"cause\":{\"place\":9,\
        \"message\":\"the bytes end at 0x9\"}}";
    expect(&[], b"\0asm\x01\0\0\0\x01", 1, out);
    // no section; a section with an unknown id, and one whose type has no known index
    let out = "\"component\":{\"start\":0,\"end\":10,\"name\":null,\"sections\":[],\"unread\":8},\
        \"fault\":{\"place\":8,\"message\":\"bad section at 0x8: \
        needs 5 bytes or more from 0xa on, where 0 are left\",\"cause\":{\"place\":10,\
        \"message\":\"needs 5 bytes or more from 0xa on, where 0 are left\"}}";
    expect(&[], &component(b"\x06\x05"), 1, out);
    let out = "\"component\":{\"start\":0,\"end\":16,\"name\":null,\"sections\":[\
        {\"start\":8,\"end\":11,\"id\":12,\"kind\":null,\"count\":null,\"items\":[],\"unread\":8},\
        {\"start\":11,\"end\":16,\"id\":7,\"kind\":\"type\",\"count\":1,\"items\":[\
        {\"start\":14,\"end\":16,\"space\":\"type\",\"index\":null,\"count\":1,\"name\":null,\
        \"item\":{\"Defined\":{\"Own\":0}}}]}]},\
        \"fault\":{\"place\":8,\"message\":\"unknown section 12 at 0x8\"}";
    expect(&[], &component(b"\x0c\x01\x07\x07\x03\x01\x69\0"), 1, out);
}

#[test]
fn texts_are_escaped() {
    // exports whose names are a quote, a backslash, a line break, the last control characters, and
    // letters of two to four bytes
    let name = "\"\\\n\0\x1f\x7f\u{80}é漢🦀/";
    let len = u8::try_from(name.len()).expect("it is short");
    let export = [&[11, len + 6, 1, 0, len][..], name.as_bytes(), &[1, 0, 0]].concat();
    let (_, out, _) = dump(&["--json"], &component(&export));
    let escaped = "\"\\\"\\\\\\u000a\\u0000\\u001f\\u007f\\u0080é漢🦀/\"";
    assert!(out.contains(escaped), "{out}");
    let item = Value::read(&out);
    let item = &item.at("component").at("sections").list()[0].at("items").list()[0];
    assert_eq!(item.at("item").at("name").at("name").text(), name);
    // and the name of a file
    let output = start(&["--json"], Path::new("no \"file\"\n"));
    let out = String::from_utf8(output.stdout).expect("text");
    let value = Value::read(&out);
    assert_eq!(value.at("file").text(), "no \"file\"\n");
    assert_eq!(value.at("fault").at("place"), &Value::Null);
}

/// A byte of a file's name that isn't UTF-8 is a lone surrogate, which no text has.
#[cfg(unix)]
#[test]
fn names_of_files_that_are_not_text_survive() {
    use std::ffi::OsStr;
    use std::os::unix::ffi::OsStrExt;
    let name = OsStr::from_bytes(b"a\xff\xc3(\xc3\xa9\xe2\x80");
    let out = String::from_utf8(start(&["--json"], Path::new(name)).stdout).expect("it is text");
    let start = "{\"version\":1,\"file\":\"a\\udcff\\udcc3(\u{e9}\\udce2\\udc80\",";
    assert!(out.starts_with(start), "{out}");
}

/// Control characters, those that change the direction of text, and line breaks.
#[test]
fn what_changes_a_terminal_is_escaped() {
    let controls = ('\0'..='\x1f').chain('\x7f'..='\u{9f}');
    let directions = ['\u{61c}', '\u{200e}', '\u{200f}'].into_iter();
    let directions = directions.chain('\u{202a}'..='\u{202e}').chain('\u{2066}'..='\u{2069}');
    let escaped: Vec<char> = controls.chain(directions).chain(['\u{2028}', '\u{2029}']).collect();
    assert_eq!(escaped.len(), 79);
    // their neighbours aren't
    let plain = " ~\u{a0}\u{61b}\u{61d}\u{200d}\u{2010}\u{2027}\u{202f}\u{2065}\u{206a}\u{301}";
    let name: String = escaped.iter().copied().chain(plain.chars()).collect();
    assert_eq!(name.len(), 0xa6);
    let section = [&[0, 0xa8, 1, 0xa6, 1], name.as_bytes()].concat();
    let custom = component(&section);
    let (status, out, _) = dump(&["--json"], &custom);
    let codes: String =
        escaped.iter().map(|letter| format!("\\u{:04x}", u32::from(*letter))).collect();
    assert!(out.contains(&format!("\"{codes}{plain}\"")), "{out}");
    let item = Value::read(&out);
    let item = &item.at("component").at("sections").list()[0].at("items").list()[0];
    assert_eq!(item.at("item").at("name").text(), name);
    // text has none of them either
    let (_, out, _) = dump(&[], &custom);
    assert!(escaped.iter().all(|letter| *letter == '\n' || !out.contains(*letter)), "{out}");
    assert_eq!((out.lines().count(), status), (3, 0));
}

#[test]
fn several_files_are_several_lines() {
    let (good, bad) = (file("json_good", FUNCTION), file_of("json_bad", b""));
    let output = Command::new(PROGRAM).arg("--json").args([&good, &bad, &good]).output();
    let output = output.expect("it runs");
    let alone = start(&["--json"], &good);
    let out = String::from_utf8(output.stdout).expect("it is text");
    let lines: Vec<&str> = out.split_inclusive('\n').collect();
    assert_eq!(lines.len(), 3);
    assert_eq!((lines[0].as_bytes(), lines[2].as_bytes()), (&alone.stdout[..], &alone.stdout[..]));
    assert_eq!(Value::read(lines[1]).at("file").text(), bad.to_str().expect("it is text"));
    assert_eq!(output.status.code(), Some(1));
}
