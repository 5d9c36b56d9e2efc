//! Readers that begin at a byte offset of a component, or continue from one.

use crate::component;
use wenc::tree::Space;
use wenc::view::ItemView;
use wenc::{
    ComponentSectionId, DebugName, DebugNames, Format, Item, Items, NamesReader, Part, ReadError,
    Sections,
};

/// Whatever the numbers are, items within the bytes are read, or an error comes once, and the end
/// is reached after no more items than there are bytes.
#[test]
fn any_place_is_read_or_refused() {
    let bytes = component(
        b"\x07\x05\x01\x40\0\x01\0\x0a\x0b\x02\0\x01f\x01\0\0\x01g\x01\0\
          \0\x03\x01xy\x01\x02ab\x09\x03\0\0\x01",
    );
    let places: Vec<_> = (0..=bytes.len() + 1).chain([usize::MAX]).collect();
    let mut read = 0;
    for (id, count) in (0..14).flat_map(|id| [0, 1, 2, u32::MAX].map(|count| (id, count))) {
        for (start, end) in places.iter().flat_map(|at| places.iter().map(|to| (*at, *to))) {
            let is_within = start <= end && end <= bytes.len();
            let is_whole = [1, 4].contains(&id) && count > 1;
            let items = Items::at(&bytes, id, start..end, count);
            assert_eq!(items.is_some(), is_within && !is_whole);
            let Some(mut items) = items else { continue };
            let found = items.by_ref().take_while(Result::is_ok).count();
            assert!(found <= end - start + 1 && items.next().is_none());
            read += found;
        }
    }
    for place in places {
        let sections = Sections::at(&bytes, place);
        assert_eq!(sections.is_some(), place <= bytes.len());
        assert!(sections.is_none_or(|sections| sections.count() <= bytes.len()));
    }
    assert!(read > 1000, "{read}");
}

/// A fault has the number of the item among those that were asked for.
#[test]
fn faults_of_a_part_of_a_section() {
    let bytes = component(b"\x0a\x0b\x03\0\x01f\x01\0\0\x01g\x01\xff");
    let id = ComponentSectionId::Import;
    let mut items = Items::at(&bytes, id, 11..21, 3).expect("it is within");
    let range = items.next().expect("an item").expect("it is read").range;
    assert_eq!((range, items.left()), (11..16, Some((16..21, 2))));
    let told = |next: Option<Result<Item<'_>, ReadError>>| {
        let error = next.expect("an error").expect_err("it isn't read");
        assert_eq!((error.format, error.id), (Format::Component, Some(10)));
        (error.section, error.part, error.offset, error.place())
    };
    assert_eq!((told(items.next()), items.left()), ((11, Part::Item(1), 16, 21), None));
    let mut none = Items::at(&bytes, id, 11..16, 0).expect("it is within");
    assert_eq!(told(none.next()), (11, Part::Rest, 11, 11));
    let mut ended = Items::at(&bytes, id, 16..16, 1).expect("it is within");
    assert_eq!(told(ended.next()), (16, Part::Item(0), 16, 16));
    let mut unknown = Items::at(&bytes, 12, 11..16, 1).expect("it is within");
    let error = unknown.next().expect("an error").expect_err("there are none");
    assert_eq!((error.section, error.id, error.part), (11, Some(12), Part::Item(0)));
}

/// The names of the component and of three functions, of which one has two, a subsection of another
/// kind, one without names, and one of a type.
const NAMES: &[u8] = b"\0\x02\x01c\x01\x0b\x01\x03\0\x01a\0\x01b\x05\x01d\x09\x01z\
    \x01\x02\x03\0\x01\x05\x03\x01\x07\x01t";

#[test]
fn debug_names_are_read_one_by_one() {
    let named = |space, index, name| DebugName { item: Some((space, index)), name };
    let wanted = [
        DebugName { item: None, name: "c" },
        named(Space::Funcs, 0, "a"),
        named(Space::Funcs, 0, "b"),
        named(Space::Funcs, 5, "d"),
        named(Space::Types, 7, "t"),
    ];
    let read: Result<Vec<_>, _> = NamesReader::new(NAMES).collect();
    assert_eq!(read, Ok(wanted.to_vec()));
    let mut names = NamesReader::new(NAMES);
    for (at, one) in wanted.into_iter().enumerate() {
        let (place, within) = names.left().expect("no error");
        let rest = NamesReader::at(NAMES, place, within).expect("it is within");
        assert!(rest.eq(wanted[at..].iter().map(|name| Ok(*name))));
        assert_eq!(names.next(), Some(Ok(one)));
    }
    assert_eq!((names.next(), names.left()), (None, Some((NAMES.len(), None))));
    let mut kept = DebugNames::new();
    let item = ItemView::Custom { name: DebugNames::SECTION, data: NAMES };
    assert_eq!(kept.read(&item), Ok(()));
    assert_eq!((kept.component(), kept.get(Space::Funcs, 0)), (Some("c"), Some("a")));
    assert_eq!(kept.iter().count(), 3);
}

/// Whatever the numbers are, names are read up to the end or an error, which comes once.
#[test]
fn debug_names_from_any_place() {
    let mut faults = 0;
    for place in 0..=NAMES.len() + 1 {
        for within in [None, Some(0), Some(1), Some(u32::MAX)] {
            let within = within.map(|left| (Space::Values, left));
            let names = NamesReader::at(NAMES, place, within);
            assert_eq!(names.is_some(), place <= NAMES.len());
            let Some(mut names) = names else { continue };
            let mut read = 0;
            while let Some(name) = names.next() {
                read += 1;
                if let Err(fault) = name {
                    let (at, stop) = (fault.offset, fault.place());
                    assert!(place <= at && at <= NAMES.len() && names.next().is_none());
                    assert!(at <= stop && stop <= NAMES.len(), "{fault}");
                    assert_eq!(names.left(), None);
                    faults += 1;
                }
            }
            assert!(read <= NAMES.len());
        }
    }
    assert!(faults > 50, "{faults}");
}
