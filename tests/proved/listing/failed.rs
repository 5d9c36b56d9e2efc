//! A failed call consumes nothing: repeated, it fails as before, or succeeds if there is memory
//! now.

use super::component;
use crate::proved::tests::refusing::Refusing;
use crate::proved::wenc_list::{
    ListFault, ListRefusal, SectionItems, SectionRefusal, Sections, list, list_or_refusal,
};
use crate::proved::wenc_read::{Expected, NestedRefusal, Refusal};
use crate::shim::alloc::AllocError;
use std::string::ToString;

const BAD_ITEM: ListFault = ListFault::BadItem { place: 8 };

#[test]
fn sections() {
    let unframed = ListFault::BadSection { place: 8 };
    let rows = [(&b"\x0c\0"[..], unframed), (b"\x06\x02\0", unframed), (b"\x06\0", BAD_ITEM)];
    for (sections, fault) in rows {
        let bytes = component(sections);
        let mut sections = Sections::new(&bytes).unwrap();
        for _ in 0..2 {
            assert_eq!(sections.next().err(), Some(fault));
            assert_eq!((sections.place(), sections.rest), (8, &bytes[8..]));
        }
    }
}

fn state(items: &SectionItems<'_>) -> (u32, usize) {
    (items.left, items.reached())
}

/// Sections with an item, what isn't read after it, how many items are left and how many bytes
/// were read then.
const ITEMS: [(&[u8], u32, usize); 3] = [
    (b"\x0a\x06\x02\0\x01f\x01\0", 1, 16),
    (b"\x0a\x07\x01\0\x01f\x01\0\x09", 0, 16),
    (b"\x09\x04\0\0\0\xff", 0, 13),
];

#[test]
fn items() {
    let heap = Refusing::new();
    for (section, left, reached) in ITEMS {
        let bytes = component(section);
        let mut items = Sections::new(&bytes).unwrap().next().unwrap().unwrap();
        let before = state(&items);
        heap.refuse_all();
        if items.id == 10 {
            assert_eq!(items.next_tree(heap).err(), Some(ListFault::Memory));
        }
        assert_eq!(state(&items), before);
        heap.refuse_none();
        assert!(items.next_tree(heap).unwrap().is_some());
        for _ in 0..2 {
            assert_eq!(items.next_tree(heap).err(), Some(BAD_ITEM));
            assert_eq!(items.next().err(), Some(BAD_ITEM));
            assert_eq!(state(&items), (left, reached));
        }
    }
}

/// The error of a listing of these bytes, and the fault that it is converted to.
fn fault<'a>(heap: Refusing, bytes: &'a [u8]) -> (ListRefusal<'a>, ListFault) {
    let refusal = list_or_refusal(heap, bytes).expect_err("it can't be listed");
    assert_eq!(list(heap, bytes).err(), Some(refusal.fault()));
    (refusal, refusal.fault())
}

#[test]
fn listings() {
    let heap = Refusing::new();
    let found = fault(heap, b"\0asm\x01\0\0\0");
    assert!(matches!(found, (ListRefusal::Header, ListFault::NotAComponent { place: 0 })));

    // a size past the end, and no count
    let bytes = component(b"\x06\x02\0");
    let (ListRefusal::Section { place: 8, refusal }, ListFault::BadSection { place: 8 }) =
        fault(heap, &bytes)
    else {
        panic!("a section that can't be read")
    };
    let expected = Refusal { left: 1, expected: Expected::Bytes(2) };
    assert!(matches!(refusal, SectionRefusal::Frame(refusal) if refusal == expected));
    let bytes = component(b"\x06\0\x07\0");
    let (ListRefusal::Section { place: 8, refusal }, BAD_ITEM) = fault(heap, &bytes) else {
        panic!("a section without a count")
    };
    let SectionRefusal::Count(of, refusal) = refusal else { panic!("no count") };
    assert_eq!((of.id, of.place, of.ends, of.left, of.rest), (6, 8, 10, 0, &b""[..]));
    assert_eq!(refusal, Refusal { left: 0, expected: Expected::Bytes(1) });

    // the second of three aliases
    let bytes = component(b"\x06\x0b\x03\x03\x02\0\0\x03\x03\0\0\0\0");
    let (ListRefusal::Item { count: 3, left, refusal }, BAD_ITEM) = fault(heap, &bytes) else {
        panic!("an item that can't be read")
    };
    assert_eq!((left.id, left.place, left.ends, left.left), (6, 8, 21, 2));
    assert_eq!(left.reached(), 15);
    let expected = Refusal { left: 5, expected: Expected::ExportOrOuter };
    assert_eq!(refusal, NestedRefusal::Flat(expected));

    heap.refuse_all();
    let bytes = component(b"\x06\x01\0");
    let found = fault(heap, &bytes);
    assert!(matches!(found, (ListRefusal::Memory, ListFault::Memory)));
    heap.refuse_none();
}

#[test]
fn faults_are_printed() {
    assert_eq!(ListFault::from(AllocError), ListFault::Memory);
    let place = 8;
    for (fault, printed) in [
        (ListFault::Memory, "Memory"),
        (ListFault::NotAComponent { place }, "NotAComponent at 8"),
        (ListFault::BadSection { place }, "BadSection at 8"),
        (BAD_ITEM, "BadItem at 8"),
        (ListFault::TooDeep { place }, "TooDeep at 8"),
    ] {
        assert_eq!(fault.to_string(), printed);
    }
}
