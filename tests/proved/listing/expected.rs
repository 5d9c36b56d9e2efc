//! The bytes that are expected where reading an item fails are those with which it continues.

use super::component;
use crate::proved::tests::hex::bytes;
use crate::{Bytes, Cause, NamesReader, Part, ReadError, Sections};
use std::collections::HashSet;
use std::string::{String, ToString};
use std::vec::Vec;

/// Zeros after the bytes that are tried.
const BEHIND: [u8; 16] = [0; 16];

/// The bytes before the one that is tried, each item a word, `_` for none, with the section's id.
const FRONTS: [(u8, &str); 16] = [
    (2, "_ 00000100 010100"),
    (3, "_ 00 4e01 4e014f 4f 5001 5e 5e7f 5f01 5f017f 6001 600163 600164 600163c0 600164c080"),
    (3, "005000 4e015000 4e014f0100"),
    (3, "500101 500102 50010210 50010300 5001000000 500100000001 50010000000170"),
    (3, "500100000002 500100000003 5001000000037f 500100000004"),
    (5, "_ 01010000 00000100"),
    (6, "_ 00 0000 0001 0002 0003 0004 0010 0011 01 02 03 04 05"),
    (7, "_ 70 70c0 70c080 720100 710100 71010000 6a 6a01 6a00 66 65"),
    (7, "4000 400000 400001 40010000 3f 3f7f"),
    (7, "4101 4201 420101 420102 42010200 420104 4201040000 410103 4101030000"),
    (8, "_ 00 01 01000001 00000001 06 0c 1100 20 09 0900 0901 0a 0b"),
    (8, "0f0001 1c01"),
    (10, "_ 0000 000000 000002 000003 0200 020001 020002 020003 0200020000 0200030000"),
    (10, "02000300000100 0200020100"),
    (11, "_ 0000 000000 00000100 0000010001"),
    (11, "0200 020002"),
];

/// Returns the place of the first byte that can't be read, and the bytes that are expected there.
fn stop(sections: &[u8]) -> Option<(usize, Option<Bytes>)> {
    let bytes = component(sections);
    let error = Sections::new(&bytes).expect("a component").items().find_map(Result::err)?;
    (error.part != Part::Rest).then(|| place_in(error))
}

fn place_in(error: ReadError) -> (usize, Option<Bytes>) {
    match error.cause {
        Cause::Byte { expected, .. } => (error.place(), Some(expected)),
        _ => (error.place(), None),
    }
}

/// Of all bytes in one place, those with which reading continues are those that are expected there.
/// Returns them.
fn is_so(place: usize, stop: impl Fn(u8) -> Option<(usize, Option<Bytes>)>) -> String {
    let mut goes_on = Vec::new();
    let mut told = HashSet::new();
    for byte in 0..=255 {
        match stop(byte) {
            Some((at, expected)) if at <= place => {
                assert_eq!(at, place, "{byte:#x}");
                told.extend(expected);
            }
            _ => goes_on.push(byte),
        }
    }
    let told: Vec<Bytes> = told.into_iter().collect();
    let [expected] = told[..] else { panic!("{place}: {told:?}") };
    let expected_bytes: Vec<u8> = expected.ranges().flatten().collect();
    assert_eq!(goes_on, expected_bytes, "{expected}");
    expected.to_string()
}

#[test]
fn items() {
    let (mut all, mut places) = (HashSet::new(), 0);
    for (id, words) in FRONTS {
        for front in words.split(' ') {
            let front = bytes(front.trim_matches('_'));
            let place = 11 + front.len();
            let with = |byte| {
                let content = [&[1], &front[..], &[byte], &BEHIND].concat();
                stop(&[&[id, content.len() as u8], &content[..]].concat())
            };
            all.insert(is_so(place, with));
            places += 1;
        }
    }
    all.insert(is_so(8, |id| stop(&[id, 0])));
    let names = |front: &'static [u8]| {
        move |byte| {
            let content = [front, &[byte], &BEHIND].concat();
            let data = [&[1, content.len() as u8], &content[..]].concat();
            Some(place_in(NamesReader::new(&data).find_map(Result::err)?))
        }
    };
    all.insert(is_so(2, names(b"")));
    all.insert(is_so(3, names(b"\0")));
    // all tables, and seventeen single ranges
    assert_eq!((places, all.len()), (112, 34), "{all:#?}");
}
