//! Why components can't be read: for damaged ones, C returns what Rust returns.

use super::edges::{EMPTY, Held};
use std::collections::BTreeMap;
use std::ffi::c_char;
use std::{mem, ptr};
use wenc::view::ItemView;
use wenc::{
    Cause, DebugNames, Item, Items, NamesReader, Part, ProducersReader, ReadError, Sections, Step,
    list,
};
use wenc_calls::by_items::sections;
use wenc_calls::corpus;
use wenc_calls::random::Random;
use wenc_capi::Status;
use wenc_capi::listing::*;
use wenc_capi::rows::SectionRow;
use wenc_capi::walk::*;

/// A sentence, whose length is asked for first.
fn written(write: impl Fn(*mut c_char, usize) -> usize) -> String {
    let needed = write(ptr::null_mut(), 0);
    let mut text = vec![1; needed + 1];
    assert_eq!(write(text.as_mut_ptr().cast(), needed + 1), needed);
    assert_eq!(text.pop(), Some(0));
    String::from_utf8(text).expect("it is UTF-8")
}

/// The sentence of the section at this place.
fn sentence(bytes: &[u8], section: usize) -> String {
    let (at, len) = (bytes.as_ptr(), bytes.len());
    written(|to, size| unsafe { wenc_fault_text(at, len, section, to, size) })
}

/// The sentence of an item of a section.
fn sentence_of_item(section: u32, bytes: &[u8]) -> String {
    let (at, len) = (bytes.as_ptr(), bytes.len());
    written(|to, size| unsafe { wenc_item_fault_text(section, at, len, to, size) })
}

/// What C returns for a fault: the status, the section, the sentence, and where the walk stays.
type Reported = (Status, usize, String, Option<usize>);

/// The faults of a walk that continues after each section that can't be read.
fn walked(bytes: &[u8]) -> Vec<Reported> {
    let (mut walk, mut reported): (Walk, _) = (unsafe { mem::zeroed() }, Vec::new());
    let status = unsafe { wenc_walk_begin(&mut walk, bytes.as_ptr(), bytes.len()) };
    if status != Status::Done {
        return vec![(status, 0, sentence(bytes, 0), None)];
    }
    loop {
        let mut section: SectionRow = unsafe { mem::zeroed() };
        match unsafe { wenc_walk_section(&mut walk, &mut section) } {
            Status::Done => loop {
                match unsafe { wenc_walk_item(&mut walk, ptr::null_mut()) } {
                    Status::Done => {}
                    Status::End => break,
                    status => {
                        let text = sentence(bytes, section.place);
                        reported.push((status, section.place, text, Some(walk.next_item)));
                        break;
                    }
                }
            },
            Status::End => return reported,
            status => {
                let place = walk.next_section;
                reported.push((status, place, sentence(bytes, place), None));
                if unsafe { wenc_walk_skip(&mut walk, ptr::null_mut()) } != Status::Done {
                    return reported;
                }
            }
        }
    }
}

/// The faults in all sections, by Rust.
fn faults(bytes: &[u8]) -> Vec<ReadError> {
    let mut walk = match wenc::Walk::new(bytes, 1) {
        Ok(walk) => walk,
        Err(error) => return vec![error],
    };
    let mut found = Vec::new();
    while let Some(step) = walk.next() {
        match step {
            // what is in it isn't read
            Step::Enter(_) => walk.go_to(usize::MAX),
            Step::Unread(unread) if walk.depth() == 0 => found.push(unread.error),
            _ => {}
        }
    }
    found
}

/// The status of an error.
fn status(error: ReadError) -> Status {
    match (error.part, error.cause) {
        (Part::Header, _) => Status::NotAComponent,
        (Part::Section, _) => Status::BadSection,
        (_, Cause::Deep { .. }) => Status::TooDeep,
        _ => Status::BadItem,
    }
}

/// The byte offset of the cause, the bytes that are expected there, and the kind of the cause.
fn stop(cause: Cause) -> (usize, Vec<u8>, &'static str) {
    match cause {
        Cause::Byte { place, expected, .. } => {
            (place, expected.ranges().flatten().collect(), "byte")
        }
        Cause::Text { place, .. } => (place, Vec::new(), "text"),
        Cause::Number { place, .. } => (place, Vec::new(), "number"),
        Cause::Few { place, len, .. } => (place + len, Vec::new(), "few"),
        Cause::Deep { place } => (place, Vec::new(), "deep"),
        Cause::Header(_) => (0, Vec::new(), ""),
        cause => panic!("{cause:?}"),
    }
}

/// The byte offset of a custom section's content, where the walk stays if it has no name.
fn content(bytes: &[u8], section: usize) -> Option<usize> {
    let (range, raw) = Sections::at(bytes, section)?.next_raw()?;
    (raw.id == 0).then_some(range.end - raw.data.len())
}

/// What a walk should return for a fault.
fn reported(bytes: &[u8], error: ReadError) -> Reported {
    let next = match error.part {
        Part::Item(_) | Part::Rest => Some(error.offset),
        Part::Section => content(bytes, error.section),
        _ => None,
    };
    (status(error), error.section, error.to_string(), next)
}

/// Reading the whole component returns the first of the faults.
fn is_listed_so(bytes: &[u8], first: Option<ReadError>) {
    let (mut listing, mut row) = (Held::nothing(), UnreadPart::default());
    let status = unsafe { wenc_list(listing.at(), bytes.as_ptr(), bytes.len(), &mut row) };
    assert_eq!(list(bytes).err(), first);
    let Some(fault) = first else {
        assert_eq!((status, row.cause, row.expected), (Status::Done, 0, [0; 32]));
        return;
    };
    let (section, offset) = (fault.section, fault.offset);
    let (part, item, place) = match fault.part {
        Part::Count => (1, 0, offset),
        Part::Item(number) => (2, number, offset),
        Part::Rest => (3, 0, offset),
        _ => (0, 0, section),
    };
    let (expected_status, (cause, expected, _)) = (self::status(fault), stop(fault.cause));
    assert_eq!((status, row.section, row.place), (expected_status, section, place), "{fault}");
    assert_eq!((row.part, row.item, row.cause), (part, item, cause), "{fault}");
    let is_set = |byte: &u8| row.expected[usize::from(byte / 8)] >> (byte % 8) & 1 == 1;
    assert_eq!((0..=255).filter(is_set).collect::<Vec<u8>>(), expected, "{fault}");
    assert_eq!(sentence(bytes, row.section), fault.to_string());
}

/// Counts the faults of these bytes by their causes, which are the same in C and in Rust.
fn compare(bytes: &[u8], counts: &mut BTreeMap<&str, usize>) {
    let faults = faults(bytes);
    is_listed_so(bytes, faults.first().copied());
    let expected: Vec<Reported> = faults.iter().map(|fault| reported(bytes, *fault)).collect();
    assert_eq!(walked(bytes), expected);
    for fault in faults {
        let kind = match fault.part {
            Part::Header | Part::Rest => "none",
            _ => stop(fault.cause).2,
        };
        *counts.entry(kind).or_default() += 1;
    }
}

/// The components of the corpus, and those that are nested in them.
pub fn components() -> Vec<Vec<u8>> {
    let mut components = Vec::new();
    let mut left: Vec<_> = corpus::components().into_iter().map(|(_, bytes)| bytes).collect();
    while let Some(bytes) = left.pop() {
        // some have canonical functions of other versions
        for item in Sections::new(&bytes).expect("a component").items().flatten() {
            if let ItemView::Component(nested) = item.view {
                left.push(nested.to_vec());
            }
        }
        components.push(bytes);
    }
    components
}

/// The bytes, damaged at this place.
fn damaged(mut bytes: Vec<u8>, place: usize, random: &mut Random) -> Vec<u8> {
    match random.below(6) {
        0 => bytes.truncate(place),
        1 => bytes[place] = random.below(0x100) as u8,
        2 => bytes[place] ^= 1 << random.below(8),
        3 => bytes[place] |= 0x80,
        4 => drop(bytes.remove(place)),
        _ => bytes.iter_mut().skip(place).take(6).for_each(|byte| *byte = 0xff),
    }
    bytes
}

#[test]
fn causes_are_those_of_rust() {
    let (mut random, mut counts) = (Random(1), BTreeMap::new());
    let components = components();
    for bytes in &components {
        // what is in a core module or a nested component isn't read
        let mut places: Vec<usize> = (0..8).collect();
        for section in sections(bytes) {
            let len = if matches!(section.id(), 1 | 4) { 10 } else { usize::MAX };
            places.extend(section.range().take(len));
        }
        for _ in 0..60 {
            let place = places[random.below(places.len())];
            compare(&damaged(bytes.clone(), place, &mut random), &mut counts);
        }
    }
    // types in a hundred others
    let deep = [&b"\x01"[..], &b"\x42\x01\x01".repeat(100), b"\x42\0"].concat();
    let size = [deep.len() as u8 | 0x80, (deep.len() >> 7) as u8];
    compare(&[b"\0asm\x0d\0\x01\0\x07", &size[..], &deep].concat(), &mut counts);
    let kinds: Vec<&str> = counts.keys().copied().collect();
    assert_eq!(kinds, ["byte", "deep", "few", "none", "number", "text"]);
    assert!(counts["byte"] > 2_000 && counts["number"] > 50, "{counts:?}");
}

/// Reading continues from an offset at which no section begins, as in Rust, or there is no
/// sentence.
#[test]
fn any_offset_is_accepted() {
    let component = b"\0asm\x0d\0\x01\0\x07\x05\x01\x40\0\x01\0\x0a\x06\x01\0\x01f\x09\0";
    let mut count = 0;
    for section in (0..=component.len() + 2).chain([usize::MAX - 1, usize::MAX]) {
        let fault = Sections::at(component, section)
            .and_then(|mut sections| sections.next())
            .and_then(|section| match section {
                Ok(section) => section.items().find_map(Result::err),
                Err(fault) => Some(fault),
            });
        // the header begins at 0
        let expected =
            fault.filter(|_| section > 0).map_or(String::new(), |fault| fault.to_string());
        assert_eq!(sentence(component, section), expected, "{section}");
        count += usize::from(!expected.is_empty());
    }
    assert_eq!(count, 14);
}

/// There is no sentence for a range out of bounds, and empty bytes are a component without a
/// header.
#[test]
fn invalid_ranges_have_no_sentence() {
    let sentence_of = |bytes, len| {
        let mut text = [1_u8; 50];
        let at = text.as_mut_ptr().cast();
        let needed = unsafe { wenc_fault_text(bytes, len, 0, at, text.len()) };
        assert_eq!(unsafe { wenc_fault_text(bytes, len, 0, ptr::null_mut(), 50) }, needed);
        assert_eq!(unsafe { wenc_fault_text(bytes, len, 0, ptr::null_mut(), 0) }, needed);
        assert_eq!(text[needed], 0);
        String::from_utf8(text[..needed].to_vec()).expect("it is UTF-8")
    };
    let header = "no component's header at 0x0: found nothing";
    assert_eq!(sentence_of(EMPTY, 0), header);
    assert_eq!(sentence_of(b"".as_ptr(), 0), header);
    for len in [1, 8, usize::MAX] {
        assert_eq!(sentence_of(EMPTY, len), "");
    }
    assert_eq!(sentence_of(b"a".as_ptr(), usize::MAX), "");
}

/// Why the bytes aren't one item, or the data of a custom section can't be read, by Rust: what is
/// at fault, and the sentence.
fn fault_of_item(section: u32, bytes: &[u8]) -> Option<(&'static str, String)> {
    let mut items = Items::at(bytes, section as u8, 0..bytes.len(), 1).expect("one item");
    let first = items.next().expect("an item");
    let (name, data) = match (first, items.next()) {
        (Err(fault), _) | (_, Some(Err(fault))) => return Some(("item", fault.to_string())),
        (Ok(Item { view: ItemView::Custom { name, data }, .. }), _) => (name, data),
        _ => return None,
    };
    let moved = |error: ReadError| error.moved(bytes.len() - data.len()).to_string();
    match name {
        DebugNames::SECTION => {
            Some(("names", moved(NamesReader::new(data).find_map(Result::err)?)))
        }
        ProducersReader::SECTION => {
            Some(("producers", moved(ProducersReader::new(data).find_map(Result::err)?)))
        }
        _ => None,
    }
}

#[test]
fn causes_of_items_are_those_of_rust() {
    let (mut random, mut counts) = (Random(2), BTreeMap::new());
    for bytes in components() {
        for section in sections(&bytes) {
            // what is in a core module or a nested component isn't read
            let (id, len) = match section.id() {
                id @ (1 | 4) => (id.into(), 0),
                id => (id.into(), usize::MAX),
            };
            for item in section.items().map_while(Result::ok) {
                let item = &bytes[item.range];
                let len = item.len().min(len);
                let mut damage = vec![item.to_vec()];
                if len > 0 {
                    let places = [(); 3].map(|()| random.below(len));
                    damage.extend(places.map(|place| damaged(item.to_vec(), place, &mut random)));
                }
                for item in damage {
                    let fault = fault_of_item(id, &item);
                    let (kind, expected) = fault.unwrap_or(("none", String::new()));
                    assert_eq!(sentence_of_item(id, &item), expected);
                    *counts.entry(kind).or_insert(0_usize) += 1;
                }
            }
        }
    }
    let kinds: Vec<&str> = counts.keys().copied().collect();
    assert_eq!(kinds, ["item", "names", "none", "producers"]);
    assert!(counts.values().all(|count| *count > 20), "{counts:?}");
}

/// Sentences of items that can't be read or that contain what can't be, and none of others.
#[test]
fn sentences_of_items() {
    let rows: [(u32, &[u8], &str); 9] = [
        (7, b"\x40\0\x01\0", ""),
        (
            7,
            b"",
            "bad item 0 at 0x0 in the section at 0x0: the section ends where a type is expected",
        ),
        (
            8,
            b"\xff",
            "bad item 0 at 0x0 in the section at 0x0: 0xff where a canonical function is expected",
        ),
        (8, b"\x05\x05", "bytes behind the last item at 0x1 in the section at 0x0"),
        (0, b"\x01x\xff", ""),
        (
            0,
            b"\x0ecomponent-name\x01\x02\0\x07",
            "bad debug names at 0xf: \
             0x07 at 0x12, where 0x00 to 0x04 or 0x10 to 0x12 is expected",
        ),
        (0, b"\x09producers\x01", "bad producers at 0xb: the bytes end at 0xb"),
        (12, b"\xff", ""),
        (u32::MAX, b"\xff", ""),
    ];
    for (section, bytes, expected) in rows {
        assert_eq!(sentence_of_item(section, bytes), expected, "{bytes:?}");
    }
    for (at, len) in [(EMPTY, 1), (b"a".as_ptr(), usize::MAX)] {
        let text = written(|to, size| unsafe { wenc_item_fault_text(8, at, len, to, size) });
        assert_eq!(text, "");
    }
}
