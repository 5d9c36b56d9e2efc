//! Numbers, types and sections at the beginning of bytes.

use super::component;
use crate::proved::tests::hex::bytes;
use crate::proved::tests::refusing::Refusing;
use crate::proved::wenc_decode::room_for;
use crate::proved::wenc_list::{ListFault, ListedSection, ProducersPart, ProducersParts, list};
use crate::proved::wenc_parts::{ComponentValType, ResultList};
use crate::proved::wenc_read::{Expected, NestedRefusal, Refusal, flag_of, u64_of};
use crate::proved::wenc_view::{TypeView, View, type_at};
use std::fmt::Debug;
use std::vec::Vec;

/// Bytes, with the value at their beginning and its length, if it can be read.
type Row<T> = (&'static [u8], Option<(T, usize)>);

const FLAGS: [Row<bool>; 5] = [
    (b"\x00\x01", Some((false, 1))),
    (b"\x01", Some((true, 1))),
    (b"\x02", None),
    (b"\x80\x00", None),
    (b"", None),
];

const LONG: [Row<u64>; 8] = [
    (b"\x00\x2a", Some((0, 1))),
    (b"\x80\x80\x04", Some((65536, 3))),
    (b"\xff\xff\xff\xff\xff\xff\xff\xff\xff\x01", Some((18446744073709551615, 10))),
    (b"\x81\x80\x80\x80\x80\x80\x80\x80\x80\x00", Some((1, 10))),
    (b"\xff\xff\xff\xff\xff\xff\xff\xff\xff\x03", None),
    (b"\x80\x80\x80\x80\x80\x80\x80\x80\x80\x80\x00", None),
    (b"\xff\xff", None),
    (b"", None),
];

const RESULTS: [Row<ResultList>; 4] = [
    (b"\x00\xc0\x00\x2a", Some((ResultList(Some(ComponentValType::Type(64))), 3))),
    (b"\x01\x00\x2a", Some((ResultList(None), 2))),
    (b"\x01\x01", None),
    (b"\x00", None),
];

/// Each of these bytes is read as the value next to it.
fn are<T: Copy + PartialEq + Debug>(
    rows: &[Row<T>],
    read: impl Fn(&'static [u8]) -> Result<(T, &'static [u8]), Refusal>,
) {
    for (bytes, wanted) in rows {
        let wanted = wanted.map(|(value, len)| (value, &bytes[len..]));
        assert_eq!(read(bytes).ok(), wanted, "{bytes:02x?}");
    }
}

#[test]
fn values() {
    are(&FLAGS, flag_of);
    are(&LONG, u64_of);
    are(&RESULTS, ResultList::view_of);
}

/// The name in a part, and the version of a tool.
fn texts(part: ProducersPart<'static>) -> (&'static str, Option<&'static str>) {
    match part {
        ProducersPart::Field(name) => (name, None),
        ProducersPart::Tool(name, version) => (name, Some(version)),
    }
}

/// Producers that are cut have the complete parts before the cut, and then end.
#[test]
fn producers() {
    const DATA: &[u8] = b"\x02\x03sdk\x02\x01A\x011\x01B\x012\x01e\0";
    // each part with its end, the tools that are left of the field, and the fields
    let all = [
        (("sdk", None), 6, 2, 1),
        (("A", Some("1")), 10, 1, 1),
        (("B", Some("2")), 14, 0, 1),
        (("e", None), 17, 0, 0),
    ];
    for len in 1..=DATA.len() {
        let mut parts = ProducersParts::new(&DATA[..len]).expect("a number");
        assert_eq!((parts.tools, parts.fields, parts.rest), (0, 2, &DATA[1..len]));
        for (part, end, tools, fields) in all.into_iter().filter(|part| part.1 <= len) {
            let next = parts.next().map(|part| part.map(texts));
            assert_eq!(next, Ok(Some(part)), "{len}");
            assert_eq!((parts.tools, parts.fields, parts.rest), (tools, fields, &DATA[end..len]));
        }
        let left = (parts.tools, parts.fields, parts.rest);
        for _ in 0..2 {
            let end = parts.next().map(|part| part.map(texts));
            assert_eq!(end.ok(), (len == 17).then_some(None), "{len}");
            assert_eq!((parts.tools, parts.fields, parts.rest), left);
        }
    }
    for (data, expected) in [(&b""[..], Expected::Bytes(1)), (b"\x80", Expected::Bytes(1))] {
        assert_eq!(ProducersParts::new(data).err(), Some(Refusal { left: 0, expected }));
    }
}

/// Values that have no room are counted as none.
#[test]
fn room() {
    let rows = [(0, 0, 0), (0, 3, 0), (3, 3, 3), (2, 3, 2), (4, 3, 0), (4294967295, 3, 0)];
    for (count, len, wanted) in rows {
        assert_eq!(room_for(count, &[0; 3][..len]), wanted);
    }
}

/// An instance type in another, as deep as is asked.
#[test]
fn depth() {
    let bytes = bytes("4201014201016e002a");
    let Ok((TypeView::Instance(decls), [0x2a])) = type_at(2, &bytes) else { panic!("a type") };
    assert_eq!((decls.len(), decls.count()), (1, 1));
    assert_eq!(type_at(1, &bytes), Err(NestedRefusal::TooDeep(6)));
    let refusal = Refusal { left: 0, expected: Expected::Bytes(1) };
    assert_eq!(type_at(2, &bytes[..6]), Err(NestedRefusal::from(refusal)));
}

/// The id, the byte offset and the number of items of a section.
type Sections = &'static [(u8, usize, usize)];

/// Sections, and what is listed of them, or where no section can be read.
const SECTIONS: [(&str, Result<Sections, usize>); 7] = [
    ("", Ok(&[])),
    ("060100", Ok(&[(6, 8, 0)])),
    ("0601000a06010001660100", Ok(&[(6, 8, 0), (10, 11, 1)])),
    ("010109", Ok(&[(1, 8, 1)])),
    ("06", Err(8)),
    ("0601000c00", Err(11)),
    ("00020261", Err(8)),
];

#[test]
fn sections() {
    for (sections, wanted) in SECTIONS {
        let heap = Refusing::new();
        let found = match list(heap, &component(&bytes(sections))) {
            Ok(listing) => {
                let row = |of: &ListedSection| (of.id, of.place, of.items.len());
                Ok(listing.sections.iter().map(row).collect::<Vec<_>>())
            }
            Err(ListFault::BadSection { place }) => Err(place),
            Err(fault) => panic!("{sections}: {fault:?}"),
        };
        assert_eq!(found.as_deref(), wanted.as_ref().map(|rows| &rows[..]), "{sections}");
    }
}
