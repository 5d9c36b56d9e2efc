//! Sections and items one by one.

use crate::component;
use wenc::view::ItemView;
use wenc::{Cause, Item, Part, Sections, Step, Walk, list};

fn sections(bytes: &[u8]) -> Sections<'_> {
    Sections::new(bytes).expect("it is a component")
}

/// Two imports, the second of which can't be read, between sections that can.
const BAD_IMPORT: &[u8] = b"\x07\x05\x01\x40\x00\x01\x00\
    \x0b\x07\x01\x00\x01a\x01\x00\x00\
    \x0a\x07\x02\x00\x01f\x01\x00\xff\
    \x0b\x07\x01\x00\x01b\x01\x00\x00";

#[test]
fn the_first_fault_ends_what_is_found() {
    let bytes = component(BAD_IMPORT);
    let error = list(&bytes).expect_err("it can't be read");
    assert_eq!((error.section, error.id), (24, Some(10)));
    assert_eq!((error.part, error.offset), (Part::Item(1), 32));
    let text = "bad item 1 at 0x20 in the section at 0x18: 0xff where an import is expected";
    assert_eq!(error.to_string(), text);

    let items: Vec<_> = sections(&bytes).items().collect();
    assert_eq!(items.len(), 4);
    assert_eq!(items.iter().filter(|item| item.is_ok()).count(), 3);
    assert_eq!(items[3], Err(error));
    let walk = || Walk::new(&bytes, 0).expect("it is a component");
    assert!(walk().items().eq(items));
    // a walk goes on
    let count = |is_counted: fn(&Step<'_>) -> bool| walk().filter(is_counted).count();
    assert_eq!(count(|step| matches!(step, Step::Item(_))), 4);
    assert_eq!(count(|step| matches!(step, Step::Unread(_))), 1);
}

/// A fault is returned once, by the sections and by the items of one, and then `None`.
#[test]
fn a_fault_comes_once() {
    let bytes = component(BAD_IMPORT);
    let mut rest = sections(&bytes[..bytes.len() - 1]);
    let imports = rest.nth(2).expect("a section").expect("it is framed");
    // the last section is cut
    let error = rest.next().expect("an error").expect_err("it isn't read");
    assert_eq!((error.offset, error.id), (33, None));
    assert_eq!(error.cause, Cause::Few { place: 35, needed: 7, len: 6 });
    assert_eq!(format!("{rest:?}"), "Sections { offset: None, .. }");
    assert!(rest.next().is_none() && rest.next().is_none());
    assert_eq!((rest.clone().count(), rest.items().count()), (0, 0));

    let mut items = imports.items();
    assert!(items.next().expect("an item").is_ok());
    assert!(items.next().expect("a fault").is_err());
    assert_eq!(format!("{items:?}"), "Items { offset: None, .. }");
    assert!(items.next().is_none() && items.next().is_none());
}

/// The methods of a cursor that has been advanced find what follows.
#[test]
fn a_cursor_goes_on_from_where_it_is() {
    let bytes = component(BAD_IMPORT);
    let mut rest = sections(&bytes);
    let ids: Vec<u8> = rest.by_ref().take(3).map(|section| section.expect("it is").id()).collect();
    assert_eq!(ids, [7, 11, 10]);
    let items: Result<Vec<_>, _> = rest.clone().items().collect();
    let [Item { range, view: ItemView::Export { name, .. }, .. }] = &items.expect("it is read")[..]
    else {
        panic!("one export");
    };
    assert_eq!((range.clone(), name.name), (36..42, "b"));
    assert_eq!(rest.count(), 1);
}

/// A cursor prints its byte offset.
#[test]
fn readers_are_printed() {
    // an alias section without an item, in a component in a component
    let bytes = b"\0asm\x0d\0\x01\0\x04\x0b\0asm\x0d\0\x01\0\x06\x01\0";
    let mut outer = sections(bytes);
    assert_eq!(format!("{outer:?}"), "Sections { offset: Some(8), .. }");
    let section = outer.next().unwrap().unwrap();
    assert_eq!(format!("{section:?}"), "SectionReader { id: 4, range: 8..21, .. }");
    assert_eq!(format!("{:?}", section.items()), "Items { offset: Some(10), .. }");
    assert_eq!(format!("{outer:?}"), "Sections { offset: Some(21), .. }");
}
