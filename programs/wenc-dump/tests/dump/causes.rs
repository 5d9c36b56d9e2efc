//! Why items and sections can't be read, and from which byte on.

use crate::corpus::components;
use crate::json_value::Value;
use crate::{component, dump};
use std::collections::BTreeSet;
use wenc::{ComponentSection, Encode, RawSection, ReadError, Sections, list};

/// One in this many kinds of damage is tried. Programs that aren't optimized are slow.
const STEP: usize = if cfg!(debug_assertions) { 9 } else { 3 };

/// The byte offset of the first fault's cause, and its words.
fn cause(bytes: &[u8]) -> Option<(usize, String)> {
    let json = Value::read(&dump(&["--json"], bytes).1);
    let Value::Object(fault) = json.at("fault") else { return None };
    let cause = fault.get("cause")?;
    let place = usize::try_from(cause.at("place").number()).expect("it is small");
    Some((place, cause.at("message").text().to_string()))
}

/// In a text of any size the byte that isn't UTF-8 is found.
#[test]
fn long_texts_are_looked_at() {
    for (size, at) in [(127, 100), (128, 5), (1_000, 333), (16_384, 12_345)] {
        let mut item = vec![0];
        size.encode(&mut item);
        let start = item.len();
        item.extend(vec![b'a'; size]);
        item.extend([1, 0]);
        item[start + at] = 0xff;
        let bytes = alone(10, &item);
        let place = bytes.len() - item.len() + start + at;
        assert_eq!(cause(&bytes), Some((place, format!("0xff at {place:#x} isn't UTF-8"))));
    }
}

/// A list after this tag, with this many members of these bytes.
fn list_of(tag: &[u8], number: usize, member: &[u8]) -> Vec<u8> {
    let mut item = tag.to_vec();
    number.encode(&mut item);
    item.extend(member.repeat(number));
    item
}

/// The cause in a component of this item, in which the byte at this place, counted from the end, is
/// another one: where it is, counted from there too, and what is expected.
fn cause_from_end(id: u8, mut item: Vec<u8>, from_end: usize, byte: u8) -> (usize, Vec<u8>) {
    let place = item.len() - from_end;
    item[place] = byte;
    let bytes = alone(id, &item);
    let (place, message) = cause(&bytes).expect("a cause");
    (bytes.len() - place, expected(&message))
}

/// Types with many members, of which the last has a wrong byte, alone and in other types: the cause
/// is the same as in the last member alone.
#[test]
fn causes_in_long_items_are_those_in_short_ones() {
    // exports of functions, imports of them, and core functions, each with places in which a byte
    // is wrong
    let members: [(&[u8], &[u8], &[usize]); 3] = [
        (b"\x42", b"\x04\0\x01f\x01\0", &[2, 6]),
        (b"\x41", b"\x03\0\x01f\x01\0", &[2, 5, 6]),
        (b"\x42", b"\0\x60\x01\x7f\0", &[2, 4]),
    ];
    for (tag, member, places) in members {
        for from_end in places {
            let expected = cause_from_end(7, list_of(tag, 1, member), *from_end, 0x41);
            assert!(
                expected.0 == *from_end && !expected.1.is_empty(),
                "{member:02x?}: {expected:02x?}"
            );
            for number in [130, 400, 20_000] {
                let long = list_of(tag, number, member);
                // in an instance type, after a handle
                let nested = [b"\x42\x02\x01\x68\0\x01", &long[..]].concat();
                for item in [long, nested] {
                    assert_eq!(cause_from_end(7, item, *from_end, 0x41), expected, "{member:02x?}");
                }
            }
        }
    }
}

/// The expected bytes are named also after a long name.
#[test]
fn long_names_are_passed_over() {
    for size in [3, 128, 2_000, 10_000] {
        let mut import = vec![0];
        "x".repeat(size).encode(&mut import);
        import.extend([1, 0]);
        let expected = (2, vec![0, 1, 2, 3, 4, 5]);
        assert_eq!(cause_from_end(10, import, 2, 0x41), expected, "{size}");
    }
}

/// Items of the corpus, each with its section's id, up to this size; all different.
fn items(size: usize) -> BTreeSet<(u8, Vec<u8>)> {
    let mut items = BTreeSet::new();
    for bytes in components() {
        for section in Sections::new(&bytes).into_iter().flatten().flatten() {
            if matches!(section.id(), 0 | 1 | 4) {
                continue;
            }
            for item in section.items().flatten().filter(|item| item.range.len() <= size) {
                items.insert((section.id(), bytes[item.range].to_vec()));
            }
        }
    }
    items
}

/// A component with a section of this item.
fn alone(id: u8, item: &[u8]) -> Vec<u8> {
    let count: &[u8] = if id == 9 { &[] } else { &[1] };
    let mut sections = Vec::new();
    RawSection { id, data: &[count, item].concat() }.append_to_component(&mut sections);
    component(&sections)
}

/// The bytes that the words of a cause expect.
fn expected(message: &str) -> Vec<u8> {
    let ranges = message.strip_suffix(" is expected").and_then(|text| text.split_once(", where "));
    let Some((_, ranges)) = ranges else { return Vec::new() };
    let ranges = ranges.replace(" or ", ", ");
    let byte =
        |text: &str| u8::from_str_radix(text.trim_start_matches("0x"), 16).expect("it is a byte");
    let mut bytes = Vec::new();
    for range in ranges.split(", ") {
        let (from, to) = range.split_once(" to ").unwrap_or((range, range));
        bytes.extend(byte(from)..=byte(to));
    }
    bytes
}

/// A component with these sections, or a core module if they begin with its header.
fn file_of(sections: &[u8]) -> Vec<u8> {
    if sections.starts_with(b"\0asm") { sections.to_vec() } else { component(sections) }
}

/// Sections whose first item, at 0xb, can't be read, each with the cause.
const ITEMS: [(&[u8], &str); 14] = [
    // a name of an import, and of a nested item
    (b"\x0a\x07\x01\0\x02a\xff\x01\0", "0xff at 0xe isn't UTF-8"),
    (b"\x07\x0c\x01\x42\x01\x04\0\x04a\xc3\x28c\x01\0", "0xc3 at 0x11 isn't UTF-8"),
    // unknown kinds and opcodes
    (b"\x0a\x06\x01\0\x01f\x09\x63", "0x09 at 0xe, where 0x00 to 0x05 is expected"),
    (b"\x06\x02\x01\x09", "0x09 where an alias is expected"),
    (b"\x08\x02\x01\x7f", "0x7f where a canonical function is expected"),
    (b"\x08\x04\x01\0\0\x33", "the bytes end at 0xe"),
    // types of values: of a field, in a list, of two bytes, and of a core function
    (
        b"\x07\x06\x01\x72\x01\x01a\x41",
        "0x41 at 0xf, where 0x00 to 0x3f, 0x64 or 0x73 to 0xff is expected",
    ),
    (b"\x07\x03\x01\x70\x65", "0x65 at 0xc, where 0x00 to 0x3f, 0x64 or 0x73 to 0xff is expected"),
    (
        b"\x07\x07\x01\x72\x01\x01a\xc1\x41",
        "0x41 at 0x10, where 0x00 to 0x3f or 0x80 to 0xff is expected",
    ),
    (
        b"\x03\x05\x01\x60\x01\x41\0",
        "0x41 at 0xd, where 0x63 to 0x64, 0x69 to 0x74 or 0x7b to 0x7f is expected",
    ),
    // too few bytes for a name
    (b"\x0a\x0a\x01\0\xc8\x01file\x01\0", "needs 200 bytes or more from 0xe on, where 6 are left"),
    (b"\x0a\x08\x01\0\x64file\xff", "needs 100 bytes or more from 0xd on, where 5 are left"),
    (b"\x0a\x08\x01\0\x09file\x03", "needs 9 bytes or more from 0xd on, where 5 are left"),
    // a number that is too large
    (
        b"\x03\x12\x01\x50\x01\0\0\0\x02\0\xff\xff\xff\xff\xff\xff\xff\xff\xff\x02",
        "the number at 0x12 has more than 64 bits",
    ),
];

/// Other kinds of damage, each with a file and its message.
const KINDS: [(&[u8], &str); 12] = [
    // a name of a custom section
    (b"\0\x03\x02a\x80", "custom section without a name at 0x8: 0x80 at 0xc isn't UTF-8"),
    // too few bytes for a size and for a count
    (b"\x06\x05\x01", "bad section at 0x8: needs 5 bytes or more from 0xa on, where 1 is left"),
    (b"\x06\x01\x80", "bad count at 0xa in the section at 0x8: the bytes end at 0xb"),
    // numbers that are too large
    (
        b"\x07\xff\xff\xff\xff\xff\x01",
        "bad section at 0x8: the number at 0x9 has more than 32 bits",
    ),
    (
        b"\x09\x08\xff\xff\xff\xff\x1f\0\0\0",
        "bad item 0 at 0xa in the section at 0x8: the number at 0xa has more than 32 bits",
    ),
    // an unknown section; bytes after the last item; more items than there are
    (b"\x0c\x01\0", "unknown section 12 at 0x8"),
    (b"\x06\x02\0\0", "bytes behind the last item at 0xb in the section at 0x8"),
    (
        b"\x0a\x06\x02\0\x01f\x01\0",
        "bad item 1 at 0x10 in the section at 0x8: the section ends where an import is expected",
    ),
    // a core module
    (
        b"\0asm\x01\0\0\0\x02\x06\x01\x01m\x01f\x05",
        "bad item 0 at 0xb: 0x05 at 0xf, where 0x00 to 0x04 is expected",
    ),
    (
        b"\0asm\x01\0\0\0\x0b\x02\x07\0",
        "bad item 0 at 0xb: needs 7 bytes or more from 0xb on, where 1 is left",
    ),
    // headers
    (b"\x04\x08\0asm\x01\0\0\0", "no component's header at 0xa: found a core module"),
    (
        b"\0asm\x0c\0\x01\0",
        "no component's header at 0x0: found another version of the format: version 0x1000c",
    ),
];

#[test]
fn kinds_of_damage_are_told_apart() {
    let item = "bad item 0 at 0xb in the section at 0x8: ";
    let rows = ITEMS.map(|row| (item, row)).into_iter().chain(KINDS.map(|row| ("", row)));
    for (front, (sections, expected)) in rows {
        let (status, _, err) = dump(&[], &file_of(sections));
        assert_eq!(
            (err, status),
            (format!("wenc-dump: -: {front}{expected}\n"), 1),
            "{sections:02x?}"
        );
    }
}

/// Returns the byte offset of the part that `list` can't read, and where its section ends.
pub fn part_of(bytes: &[u8], error: ReadError) -> (usize, usize) {
    let (section, part) = (error.section, error.offset);
    let mut sections = Sections::at(bytes, section).expect("it is within");
    (part, sections.next_raw().map_or(bytes.len(), |(range, _)| range.end))
}

/// Returns whether the first fault is that of `list`. Its cause is in the part that `list` can't
/// read, or the fault has none.
fn is_fault_of_list(bytes: &[u8], fault: ReadError) -> bool {
    let (place, end) = part_of(bytes, fault);
    let (status, out, _) = dump(&["--json"], bytes);
    let json = Value::read(&out);
    let fault = json.at("fault");
    // faults of nested modules come before that of a later section
    if fault.at("place").number() != place as u128 {
        return false;
    }
    let message = fault.at("message").text();
    match cause(bytes) {
        Some((cause, _)) => assert!(place <= cause && cause <= end, "{message}"),
        None => {
            let kinds = ["unknown section ", "bytes behind the last item "];
            assert!(kinds.iter().any(|kind| message.starts_with(kind)), "{message}");
        }
    }
    assert_eq!(status, 1, "{message}");
    true
}

#[test]
fn causes_are_in_what_the_reader_names() {
    let (mut faults, mut compared) = (0, 0);
    for bytes in components().filter(|bytes| bytes.len() < 640 && list(bytes).is_ok()) {
        for at in (8..bytes.len()).step_by(STEP) {
            let mut changed = bytes.clone();
            changed[at] ^= 0xff;
            for bytes in [&changed[..], &bytes[..at]] {
                let Err(fault) = list(bytes) else { continue };
                faults += 1;
                compared += usize::from(is_fault_of_list(bytes, fault));
            }
        }
    }
    assert!(compared > 100 && compared > faults / 2, "{compared} of {faults}");
}

/// An item that is cut needs more bytes than are left.
#[test]
fn items_that_are_cut_need_bytes() {
    let mut cut = 0;
    for (id, item) in items(24).iter().step_by(5 * STEP) {
        for len in 1..item.len() {
            let bytes = alone(*id, &item[..len]);
            let (place, message) = cause(&bytes).expect("a cause");
            let is_end = message.starts_with("the bytes end at ");
            assert!(is_end || message.starts_with("needs "), "{:02x?}: {message}", &item[..len]);
            assert_eq!(place, bytes.len(), "{:02x?}: {message}", &item[..len]);
            cut += 1;
        }
    }
    assert!(cut > 100, "{cut}");
}

/// A byte in place of which others are expected keeps the item from being read, whatever follows;
/// with one of these the cause is a later one, and with any other it isn't.
#[test]
fn expected_bytes_are_those_that_go_on() {
    let (mut causes, mut compared) = (0, 0);
    for (id, item) in items(14).iter().step_by(12 * STEP) {
        for at in 0..item.len() {
            let mut item = item.clone();
            item[at] ^= 0x91;
            let bytes = alone(*id, &item);
            let Some((place, message)) = cause(&bytes) else { continue };
            let expected = expected(&message);
            causes += usize::from(!expected.is_empty());
            for byte in (0..=u8::MAX).step_by(27).filter(|_| !expected.is_empty()) {
                let mut bytes = bytes.clone();
                bytes[place] = byte;
                let is_same = cause(&bytes).is_some_and(|(later, _)| later == place);
                assert_eq!(is_same, !expected.contains(&byte), "{item:02x?}: {message}, {byte:#x}");
                compared += 1;
            }
        }
    }
    assert!(causes > 10 && compared > 100, "{causes} causes, {compared} bytes");
}
