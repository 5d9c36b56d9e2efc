//! Tools in producers sections.

use wenc::{Producer, ProducersReader, ProducersSection, ReadError};
use wenc_calls::encoded::encoded;

fn tools(data: &[u8]) -> Vec<Result<Producer<'_>, ReadError>> {
    ProducersReader::new(data).collect()
}

fn tool<'a>(field: &'a str, name: &'a str, version: &'a str) -> Producer<'a> {
    Producer { field, name, version }
}

#[test]
fn tools_are_read_field_by_field() {
    assert_eq!(tools(b"\0"), []);
    let data =
        b"\x04\x08language\x02\x01C\0\x04Rust\x042024\x01e\0\x03sdk\x01\x02\xc3\xa9\x011\0\0";
    let all = [tool("language", "C", ""), tool("language", "Rust", "2024"), tool("sdk", "é", "1")];
    assert_eq!(tools(data), all.map(Ok));
    // numbers in more bytes than they need
    let data = b"\x81\0\x83\x80\0sdk\x81\0\x81\0A\x80\0";
    assert_eq!(tools(data), [Ok(tool("sdk", "A", ""))]);
}

#[test]
fn long_texts_and_many_tools_are_read() {
    for size in [126, 127, 128, 16_383, 16_384] {
        let name = "x".repeat(size);
        let mut section = ProducersSection::new();
        let mut field = wenc::ProducersField::new();
        (0..size).for_each(|_| _ = field.value("a", "1"));
        section.field(&name, &field);
        let bytes = encoded(&section);
        let at = bytes.windows(9).position(|name| name == b"producers").expect("its name") + 9;
        assert_eq!(tools(&bytes[at..]), vec![Ok(tool(&name, "a", "1")); size]);
    }
}

/// The tools before an error, by their names and versions, in their order, and its byte offset.
#[test]
fn what_is_not_read_is_a_fault() {
    let (first, second) = (tool("sdk", "A", "1"), tool("sdk", "B", "2"));
    let late = tool("a", "C", "");
    let data = b"\x02\x03sdk\x02\x01A\x011\x01B\x012\x01e\0";
    assert_eq!(tools(data), [Ok(first), Ok(second)]);
    let faults: [(&[u8], &[Producer<'_>], usize, &str); 12] = [
        (b"", &[], 0, "the bytes end at 0x0"),
        (b"\x80", &[], 0, "the bytes end at 0x1"),
        (b"\xff\xff\xff\xff\x10", &[], 0, "the number at 0x0 has more than 32 bits"),
        // a field that is cut, in its name and before the number of its tools
        (&data[..3], &[], 1, "needs 3 bytes or more from 0x2 on, where 1 is left"),
        (&data[..5], &[], 1, "the bytes end at 0x5"),
        // a tool that is cut
        (&data[..9], &[], 6, "the bytes end at 0x9"),
        (&data[..10], &[first], 10, "the bytes end at 0xa"),
        (b"\x01\x03sdk\x01\x01\xff\x011", &[], 6, "0xff at 0x7 isn't UTF-8"),
        // a later field that is cut, or that isn't there
        (&data[..14], &[first, second], 14, "the bytes end at 0xe"),
        (&data[..16], &[first, second], 14, "the bytes end at 0x10"),
        (
            b"\x02\x01b\x01\x01B\x012\x01a\x02\x01C\0\x01D",
            &[tool("b", "B", "2"), late],
            14,
            "the bytes end at 0x10",
        ),
        // bytes after the last tool
        (b"\x01\x03sdk\x01\x01A\x011\0", &[first], 10, "0x00 at 0xa, where the end is expected"),
    ];
    for (data, before, place, cause) in faults {
        let told = tools(data);
        let (fault, read) = told.split_last().expect("a fault");
        assert!(read.iter().eq(&before.iter().copied().map(Ok).collect::<Vec<_>>()));
        let fault = fault.expect_err("it can't be read");
        assert_eq!(fault.offset, place, "{data:02x?}");
        assert_eq!(fault.to_string(), format!("bad producers at {place:#x}: {cause}"));
    }
}
