//! Pages of HTML.

use crate::json_value::Value;
use crate::{FUNCTION, component, corpus, dump, file, start};
use std::fs;
use std::io::Write;
use std::process::{Command, Stdio};

/// Returns the text between two others.
fn between<'a>(text: &'a str, front: &str, back: &str) -> &'a str {
    let start = text.find(front).expect("it begins") + front.len();
    &text[start..start + text[start..].find(back).expect("it ends")]
}

/// Checks what every page has, and returns its data.
fn data_of(page: &str) -> (Value, String) {
    // the data, the script, and nothing else that a browser would run or load
    assert_eq!((page.matches("<script").count(), page.matches("</script").count()), (2, 2));
    assert_eq!((page.matches("<style").count(), page.matches("<pre>").count()), (1, 1));
    assert!(!page.contains("<img") && !page.contains("http:") && !page.contains("https:"));
    let data = between(page, "id=\"data\">", "</script>").replace('\n', "");
    // a row may be before the one that precedes it
    (Value::read(&format!("{}\n", data.replace(",-", ","))), data)
}

fn data(bytes: &[u8]) -> String {
    let (_, page, _) = dump(&["--html"], bytes);
    let (value, data) = data_of(&page);
    assert_eq!(value.list().len(), 1);
    data
}

#[test]
fn of_a_function() {
    let data = data(&component(FUNCTION));
    let rows = [
        // the component, with its 23 bytes; a section of types, and the type of a function
        "[0,0,23,0,-1,-1,0,0,0],",
        "[1,8,7,2,0,7,1,0,0,2],",
        "[1,3,4,3,0,0,1,0,0,[0]],",
        // the section of imports, and a function of type 0, at byte 11, that comes from itself
        "[3,4,8,2,1,10,1,0,0,2],",
        "[1,3,5,3,2,0,1,0,1,[1,0,11],0,0,11,0]],",
    ];
    assert!(data.contains(&rows.concat()), "{data}");
    assert!(data.contains("\"words\":[\"type\",\"import\",\"func\"]"), "{data}");
    // a kind before the name, the length of that, a kind before the index, and what may be there
    let shape = "[\"r\",\"\",\"Import\",\
        [\"r\",\"name\",\"NameTree\",1,\"3\",[\"t\",\"name\",\"\",1]],\
        [\"v\",\"ty\",\"Func\",1,\"4\",[\"i\",\"\",\"type\",1]]]";
    assert!(data.contains(shape), "{data}");
    assert!(data.contains("\"bytes\":[[0,\"AGFzbQ0AAQAHBQFAAAEACgYBAAFmAQA=\""), "{data}");
}

/// The page of README's component is in the documentation; `PAGE=write` in the environment writes
/// it.
#[test]
fn of_the_documentation() {
    let sections =
        b"\x07\x08\x01\x40\x01\x01n\x79\x01\0\x0a\x06\x01\0\x01f\x01\0\x0b\x07\x01\0\x01g\x01\0\0";
    let path = concat!(env!("CARGO_MANIFEST_DIR"), "/../../docs/first.html");
    let page = start(&["--html"], &file("first.wasm", sections)).stdout;
    if std::env::var_os("PAGE").is_some_and(|value| value == "write") {
        fs::write(path, &page).expect("it is written");
        panic!("{path}: written");
    }
    assert!(fs::read(path).expect("it is there") == page, "PAGE=write writes another");
}

#[test]
fn names_are_texts() {
    let name = "</script><img src=x onerror=alert(1)><!--\u{202e}";
    let len = name.len() as u8;
    let import = [b"\x0a", &[len + 5, 1, 0, len][..], name.as_bytes(), b"\x01\0"].concat();
    data(&component(&[&FUNCTION[..7], &import].concat()));
    // a name that is one of the data itself, and that of a file
    let names = b"\0\x1b\x0ecomponent-name\0\x0a\x09</script>";
    assert!(data(&component(names)).contains("\"\\u003c/script>\""));
    #[cfg(unix)]
    {
        let page = start(&["--html"], &file("<b>.wasm", FUNCTION)).stdout;
        let page = String::from_utf8(page).expect("it is text");
        assert!(page.contains("<title>&lt;b&gt;.wasm</title>"));
        // of a path only the last name
        assert!(data_of(&page).1.starts_with("[{\"file\":\"\\u003cb>.wasm\","));
    }
}

#[test]
fn of_the_corpus_and_damaged() {
    for path in fs::read_dir(corpus::corpus("wasm")).expect("the corpus") {
        let mut bytes = fs::read(path.expect("a file").path()).expect("it is read");
        data(&bytes);
        for place in [9, 200, bytes.len() - 9] {
            bytes[place] ^= 0xff;
            data(&bytes);
        }
        data(&bytes[..bytes.len() / 2]);
    }
    for bytes in [&b""[..], b"\0asm", b"hello", b"\0asm\x01\0\0\0"] {
        data(bytes);
    }
}

#[test]
fn of_two_files() {
    let files = [file("one.wasm", FUNCTION), file("other.wasm", &FUNCTION[..7])];
    let page = start(&["--html", files[0].to_str().expect("text")], &files[1]).stdout;
    let (value, _) = data_of(&String::from_utf8(page).expect("it is text"));
    let names: Vec<_> = value.list().iter().map(|file| file.at("file").text()).collect();
    assert_eq!(names, ["one.wasm", "other.wasm"]);
    let (status, _, err) = dump(&["--html", "-", "-"], b"");
    assert!(status == 2 && err.starts_with("wenc-dump: a page has one file or two\n"), "{err}");
}

/// Bytes that are many are left out, which is said; items are, too.
#[test]
fn pages_are_bounded() {
    let content = [b"\0\xa1\x8d\x06\x01c", &[7; 99_999][..]].concat();
    let found = data(&component(&content));
    assert!(found.len() < 20_000 && found.contains("\"short\":false"));
    let [count, size] = [130_000_usize, 2 * 130_000 + 3].map(|number| {
        [0, 7, 14].map(|by| (number >> by) as u8 & 0x7f | if by < 14 { 0x80 } else { 0 })
    });
    // types of lists of strings
    let types = [b"\x07", &size[..], &count, &b"\x70\x73".repeat(130_000)].concat();
    let found = data(&component(&types));
    assert!(found.contains("\"short\":true") && found.len() < 4_000_000, "{}", found.len());
}

/// The policy of pages has the digests of their style and their script.
#[test]
fn digests_are_those_of_the_parts() {
    let (_, page, _) = dump(&["--html"], &component(b""));
    let [style, script] = [("<style>", "</style>"), ("<script>", "</script>")]
        .map(|(front, back)| between(&page, front, back));
    for (part, directive) in [(style, "style-src 'sha256-"), (script, "script-src 'sha256-")] {
        let stated = between(&page, directive, "'");
        let command = "sha256sum | cut -c1-64 | xxd -r -p | base64";
        let command = Command::new("sh")
            .args(["-c", command])
            .stdin(Stdio::piped())
            .stdout(Stdio::piped())
            .stderr(Stdio::null())
            .spawn();
        let Ok(mut child) = command else { continue };
        let mut input = child.stdin.take().expect("it is a pipe");
        input.write_all(part.as_bytes()).expect("it is read");
        drop(input);
        let output = child.wait_with_output().expect("it ends");
        let digest = String::from_utf8(output.stdout).expect("it is text");
        if digest.trim().len() < 44 {
            println!("left out: the digest: no sha256sum or xxd");
            continue;
        }
        assert_eq!(stated, digest.trim());
    }
    let len = style.len() + script.len();
    assert!(len < 0xac00, "the fixed part has {len} bytes");
}
