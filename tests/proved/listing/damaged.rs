//! Bytes that can't be read: by each reader, with their fault, and with each allocation failing in
//! turn.

use super::sections::ROWS;
use super::{component, read};
use crate::proved::tests::hex::bytes;
use crate::proved::tests::refusing::Refusing;
use crate::proved::wenc_list::{self, list};
use crate::{Cause, Encode, Part, ReadError, Walk};
use std::ops::Range;
use std::vec::Vec;

/// Items that can't be read, each a word in hexadecimal, with the id of a section of one item.
const ITEMS: &[(u8, &str)] = &[
    // Numbers of six bytes, and with bits set that they have no room for.
    (8, "02828080808000 02ffffffff1f 028080808010"),
    // Numbers of 64 bits: of eleven bytes, and with bits set that they have no room for.
    (3, "500103016d02008080808080808080808000 500103016d0200ffffffffffffffffff02"),
    // Indices among types of values or heap types that are negative, too large or too long.
    (10, "0001760240 00017602c040 00017602ffffffff7f 00017602ffffffff1f 00017602808080808000"),
    (3, "6001634000 600164808080801000"),
    // A first byte that begins no item.
    (2, "020000"),
    (5, "020000"),
    (6, "09"),
    (7, "3e"),
    (8, "07 08 30 3f00 43 ff"),
    (10, "0301660100"),
    (11, "040167010000"),
    // Sorts and kinds that are unknown or missing.
    (2, "010101660500 00000101661100"),
    (5, "0000010166001200"),
    (6, "000501000166 001000000166 001001000166 001200000166 01020000 02020000 05020000"),
    (6, "0101000166 000000000166 0000020000"),
    (10, "0001660600 000166000000"),
    (11, "00016700100000"),
    // Options of a name that don't ascend, are unknown, or are missing.
    (10, "0201610202000001690100 020161020001690001690100 020161010301690100"),
    (10, "0201610400000100020002000100 020161000100"),
    // Names that are longer than what is left, or not UTF-8.
    (6, "01000002c328"),
    (7, "6d010180"),
    (10, "0005660100 0001ff0100"),
    // Flags and first bytes of options that are neither `00` nor `01`.
    (3, "5e7f02 5001030167037f02"),
    (7, "6a027300 6502 3f7f0200"),
    (8, "0602 110002 068000"),
    (10, "0001740302"),
    (11, "0001670100020100"),
    // Bytes that have to be `00`, or `01`, and aren't.
    (3, "5001030165040100"),
    (7, "710101610001 7101016100 40000101 40000200"),
    (8, "0001010000 01010000 0c01 0c8000 200100 2901 2d01 09010100"),
    // A final type written as if it extended another, and prefixes that are missing or too many.
    (3, "4f00600000 00600000 00005000600000 004f0100600000 4e01005000600000 4e014e00"),
    (3, "500101005000600000 5001015000"),
    // Declarations that are none.
    (3, "50010400 50010210020000 50010211010000 50010301650500"),
    (7, "410105 4201030001690500 420101"),
    // Unknown value types, composite types and limits.
    (3, "60016800 60017800 6001636800 610000 500103016d020800 500103017401700200"),
    (3, "50010301740170030000 5001030174017f0000 500103016d020100"),
    // Unknown options of a canonical function.
    (8, "000000010a00 1c0103"),
];

/// Items with a count of 4294967295 before the end of the bytes.
const UNFILLED: &[(u8, &str)] = &[
    // Arguments and exports of instances.
    (2, "0000ffffffff0f 01ffffffff0f"),
    (5, "0000ffffffff0f 01ffffffff0f"),
    // Parameters, results and fields of core types, types of a group, and declarations of a module
    // type.
    (3, "60ffffffff0f 6000ffffffff0f 5fffffffff0f 4effffffff0f 50ffffffff0f"),
    // Fields, cases, elements and names, parameters, and declarations.
    (7, "72ffffffff0f 71ffffffff0f 6fffffffff0f 6effffffff0f 6dffffffff0f"),
    (7, "40ffffffff0f 43ffffffff0f 41ffffffff0f 42ffffffff0f"),
    // Options.
    (8, "000000ffffffff0f 010000ffffffff0f 0f00ffffffff0f 1cffffffff0f"),
    // Bytes of a name.
    (6, "010000ffffffff0f"),
    (10, "00ffffffff0f"),
    (11, "02ffffffff0f"),
    (3, "500100ffffffff0f"),
    (7, "6d01ffffffff0f"),
];

/// A part of a section, with its byte offset.
type Unread = Option<(Part, usize)>;

const fn item(number: u32, place: usize) -> Unread {
    Some((Part::Item(number), place))
}

const fn count(place: usize) -> Unread {
    Some((Part::Count, place))
}

const fn behind(place: usize) -> Unread {
    Some((Part::Rest, place))
}

/// Sections, several in each word, with the byte offset of the first that can't be read and its
/// unread part; `None` if its id, its size or the name of a custom section is bad.
const SECTIONS: &[(usize, Unread, &str)] = &[
    // An unknown id, a size that isn't a number or extends past the end.
    (8, None, "0c00 0c ff0100 06 0680 0681808080800000 068080808010 06ffffffff1f 060501"),
    (8, None, "01ffffffff0f 060200 06808080808000"),
    // Custom sections without a name.
    (8, None, "0000 00020561 000201ff 000180 000781808080800061"),
    // The first section that can't be read counts.
    (8, None, "000006020109"),
    (11, None, "0601000c00"),
    (12, None, "010001000109"),
    (16, None, "0a060100016601000b07010001670100"),
    (8, item(0, 11), "060201090c00"),
    (11, item(0, 14), "06010006020109"),
    // No count.
    (8, count(10), "0600 0606808080808000 06058080808010 06000c00"),
    (11, count(13), "0601000a00"),
    // Fewer items than are counted, or one that begins with a wrong byte.
    (8, item(0, 11), "060101 060101060100"),
    (8, item(0, 15), "0606818080800009"),
    (8, item(0, 19), "06868080800081808080000909"),
    (8, item(1, 12), "0703027301"),
    (8, item(1, 16), "0a06020001660100 0a0b0200016601000301660100 0a0b02000166010003016601000b00"),
    (8, item(2, 15), "08070303000300070001"),
    (11, item(1, 19), "0601000a0b0200016601000301660100"),
    // Counts of 4294967295.
    (8, item(0, 15), "0205ffffffff0f 0305ffffffff0f 0505ffffffff0f 0605ffffffff0f 0705ffffffff0f"),
    (8, item(0, 15), "0805ffffffff0f 0a05ffffffff0f 0b05ffffffff0f"),
    // More items than are counted.
    (8, behind(11), "0a06000001660100 0602000506020109"),
    (8, behind(13), "0306015000600000"),
    (8, behind(16), "0a0701000166010000"),
    // A start is the only item of its section, and has no count.
    (8, item(0, 10), "0900 09020000 0903000100 0903000080 090600ffffffff0f"),
    (11, item(0, 13), "0601000903000080"),
    (8, behind(13), "090400000000 0906000000000000"),
    (11, behind(16), "0601000904000000000b00"),
];

/// The number at the beginning of the bytes, and its length.
fn number(bytes: &[u8]) -> (usize, usize) {
    let len = bytes.iter().position(|byte| *byte < 0x80).expect("it ends") + 1;
    let add = |number, byte: &u8| number << 7 | usize::from(byte & 0x7f);
    (bytes[..len].iter().rev().fold(0, add), len)
}

/// The fault is that this part of the section at this byte offset can't be read, and its cause is
/// in that part.
fn is_fault(error: ReadError, bytes: &[u8], place: usize, unread: Unread) {
    let (part, offset) = unread.unwrap_or((Part::Section, place));
    assert_eq!((error.section, error.part, error.offset), (place, part, offset), "{bytes:x?}");
    let end = if part == Part::Section {
        bytes.len()
    } else {
        assert_eq!(error.id, Some(bytes[place]));
        let (size, len) = number(&bytes[place + 1..]);
        place + 1 + len + size
    };
    is_so(error.cause, bytes, offset..end);
}

/// The cause is true of these bytes.
fn is_so(cause: Cause, bytes: &[u8], part: Range<usize>) {
    let (from, len) = (cause.place().expect("a place"), part.len());
    match cause {
        Cause::Byte { place, byte, expected } => {
            assert!(part.contains(&place) && bytes[place] == byte, "{cause} {bytes:x?}");
            assert!(expected.ranges().all(|range| !range.contains(&byte)), "{cause} {bytes:x?}");
        }
        Cause::Text { place, byte } => {
            assert!(part.contains(&place) && bytes[place] == byte && byte >= 0x80, "{cause}");
        }
        Cause::Number { place, .. } => assert!(part.contains(&place), "{cause} {bytes:x?}"),
        Cause::Few { place, needed, len: left } => {
            assert!(part.start <= place && left < needed as usize && left <= len, "{cause}");
            assert!(from <= part.end && (from == part.end || bytes[part.start] == 0), "{cause}");
        }
        _ => panic!("{cause}"),
    }
}

/// Each reader returns that this part of the section at this byte offset can't be read, also inside
/// a component around it.
fn is_told(sections: &[u8], place: usize, unread: Unread) {
    let bytes = component(sections);
    let error = read(&bytes).expect_err("it can't be read");
    is_fault(error, &bytes, place, unread);
    requests(&bytes);
    let walk = || Walk::new(&bytes, 0).expect("a component");
    assert_eq!(walk().items().last(), Some(Err(error)));
    assert_eq!(walk().out_of_range().last(), Some(Err(error)));
    let outer = component(&[&[0x04, bytes.len() as u8], &bytes[..]].concat());
    let inner = Walk::new(&outer, 1).expect("a component").items().find_map(Result::err);
    assert_eq!(inner.map(|inner| inner.part), Some(error.part));
    let unread = unread.map(|(part, offset)| (part, offset + 10));
    is_fault(inner.expect("an error"), &outer, place + 10, unread);
}

/// Each allocation of the listing fails in turn. Returns how many there are.
fn requests(bytes: &[u8]) -> u64 {
    let heap = Refusing::new();
    let is_refused = |n: &u64| {
        heap.refuse_nth(*n);
        let listing = list(heap, bytes);
        assert_eq!(listing == Err(wenc_list::ListFault::Memory), heap.was_refused());
        assert!(!heap.was_refused() || heap.requests() == *n);
        heap.was_refused()
    };
    let count = (1..).take_while(is_refused).count() as u64;
    heap.refuse_none();
    count
}

/// The items of a table, each in a section of its own.
fn sections_of(items: &[(u8, &'static str)]) -> impl Iterator<Item = Vec<u8>> {
    let words = items.iter().flat_map(|(id, words)| words.split(' ').map(move |word| (*id, word)));
    words.map(|(id, word)| {
        let item = bytes(word);
        [&[id, item.len() as u8 + 1, 1], &item[..]].concat()
    })
}

#[test]
fn items() {
    let mut told = 0;
    for section in sections_of(ITEMS) {
        is_told(&section, 8, item(0, 11));
        told += 1;
    }
    assert_eq!(told, 98);
}

#[test]
fn sections() {
    let mut told = 0;
    for (place, unread, words) in SECTIONS {
        for word in words.split(' ') {
            is_told(&bytes(word), *place, *unread);
            told += 1;
        }
    }
    assert_eq!(told, 59);
}

/// Memory is allocated for the section's one item, and for no more.
#[test]
fn great_counts() {
    let mut told = 0;
    for section in sections_of(UNFILLED) {
        is_told(&section, 8, item(0, 11));
        assert_eq!(requests(&component(&section)), 1, "{section:x?}");
        told += 1;
    }
    assert_eq!(told, 27);
    assert_eq!(requests(&component(&bytes("090600ffffffff0f"))), 1);
    assert_eq!(requests(&component(&bytes("0305ffffffff0f"))), 0);
}

/// Nested types: the bytes around each, the depth, the innermost type, and whether they can be
/// read.
const DEEP: [(&[u8], usize, &[u8], bool); 7] = [
    (b"\x42\x01\x01", 99, b"\x42\x00", true),
    (b"\x41\x01\x01", 99, b"\x41\x00", true),
    (b"\x41\x01\x01\x42\x01\x01", 49, b"\x41\x01\x01\x42\x00", true),
    (b"\x42\x01\x01", 100, b"\x42\x00", false),
    (b"\x41\x01\x01", 100, b"\x41\x00", false),
    (b"\x41\x01\x01\x42\x01\x01", 50, b"\x41\x00", false),
    (b"\x42\x01\x01", 100_000, b"\x42\x00", false),
];

#[test]
fn deep_types() {
    for (around, times, inner, is_read) in DEEP {
        // alone, and after another type
        for (number, before) in [(0, &b"\x01"[..]), (1, b"\x02\x73")] {
            let data = [before, &around.repeat(times), inner].concat();
            let mut bytes = component(&[0x07]);
            data.as_slice().encode(&mut bytes);
            let unread = item(number, bytes.len() - data.len() + before.len());
            // three bytes of each type around it
            let place = bytes.len() - data.len() + before.len() + 300;
            let told = read(&bytes).err().map(|error| (error.part, error.offset, error.cause));
            let deep = unread.map(|(part, offset)| (part, offset, Cause::Deep { place }));
            assert_eq!(told, deep.filter(|_| !is_read));
        }
    }
}

/// Worked components are listed as their rows say.
#[test]
fn worked_components() {
    for row in ROWS {
        let bytes = component(&bytes(row.sections));
        let listing = read(&bytes).expect("it is read");
        assert_eq!(listing.counts, row.counts, "{}", row.sections);
        let told = listing.sections.iter().map(|one| (one.id, one.place, one.items.len()));
        assert!(told.eq(row.listed.iter().copied()), "{}", row.sections);
        // a section ends where the next one begins
        let begins = listing.sections.iter().skip(1).map(|section| section.place);
        let ends = listing.sections.iter().map(|section| section.ends);
        assert!(begins.chain([bytes.len()]).take(row.listed.len()).eq(ends), "{}", row.sections);
        assert_eq!(requests(&bytes) == 0, row.listed.is_empty());
    }
}
