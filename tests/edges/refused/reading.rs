//! Reading components and debug names, and visiting indices.

use super::{GRANTED, NAME, calmly, each_is_refused};
use std::fmt::Debug;
use wenc::tree::{ItemTree, Space};
use wenc::*;

/// An error that says that memory was refused.
pub fn refused<E: PartialEq + Debug>(no_memory: E) -> impl Fn(E) -> Error {
    move |error| {
        assert_eq!(error, no_memory);
        Error::NoMemory
    }
}

/// The values up to the first error, in memory that isn't refused.
fn kept<T>(mut values: impl Iterator<Item = Result<T, Error>>) -> Result<Vec<T>, Error> {
    let mut kept = calmly(|| Vec::with_capacity(100));
    values.try_for_each(|value| value.map(|value| kept.push(value)))?;
    Ok(kept)
}

/// Names of functions, in a custom section.
const NAMES: &[u8] = b"\0\x1f\x0ecomponent-name\0\x02\x01c\x01\x0a\x01\x02\0\x03one\x01\x01t";

/// Components in one another. Both inner ones have an outer alias of the same type, and one of them
/// has a core type that refers to others, in its parameters and its results.
fn component(index: u8) -> Vec<u8> {
    [
        &b"\0asm\x0d\0\x01\0\x04\x66\0asm\x0d\0\x01\0\x06\x05\x01\x03\x02\x01"[..],
        &[index],
        b"\x03\x0c\x01\x60\x02\x64\0\x63\0\x02\x64\0\x63\0\
        \x04\x1e\0asm\x0d\0\x01\0\x06\x05\x01\x03\x02\x02",
        &[index],
        b"\x07\x05\x01\x40\0\x01\0\x0a\x06\x01\0\x01f\x01\0\x0a\x06\x01\0\x01f\x01\0",
        NAMES,
        NAMES,
    ]
    .concat()
}

#[test]
fn names_are_found() {
    let component = component(0);
    let found = each_is_refused(3, |refusals| refusals.call(|| DebugNames::try_of(&component)));
    assert_eq!((found.component(), found.get(Space::Funcs, 0)), (Some("c"), Some("one")));
    assert_eq!((found.get(Space::Funcs, 1), found.iter().count()), (Some("t"), 2));
}

/// Names of more items than the first allocation has room for, in descending order of indices.
#[test]
fn names_are_read() {
    let mut map = NameMap::new();
    (0..1200).rev().for_each(|index| map.append(index, if index % 400 == 0 { NAME } else { "" }));
    let mut section = ComponentNameSection::new();
    section.component(NAME);
    section.types(&map);
    let CustomSection { name, data } = section.as_custom();
    let item = ItemTree::Custom { name: (&*name).into(), data: data.into_owned() };
    let read = each_is_refused(10, |refusals| {
        let mut names = DebugNames::new();
        refusals.call(|| names.read(&item).map_err(refused(Error::NoMemory.into())));
        names
    });
    assert_eq!(read.component(), Some(NAME));
    let found = read.iter().map(|(space, index, name)| (space, index, name.len()));
    let len = |index| if index % 400 == 0 { NAME.len() } else { 0 };
    assert!(found.eq((0..1200).map(|index| (Space::Types, index, len(index)))));

    let inserted = each_is_refused(10, |refusals| {
        let mut names = DebugNames::new();
        calmly(|| names.set_component(NAME));
        for (space, index, name) in read.iter() {
            refusals.call(|| names.try_insert(space, index, calmly(|| name.to_owned())));
        }
        names
    });
    assert_eq!(inserted, read);
}

#[test]
fn nested_sections_and_their_items_are_found() {
    let component = component(0);
    let found = each_is_refused(0, |refusals| {
        refusals.call(|| {
            let mut walk = Walk::new(&component, 2).map_err(refused(Error::NoMemory.into()))?;
            let mut found = calmly(Vec::new);
            while let Some(step) = walk.next() {
                match step {
                    Step::Section(of) => calmly(|| found.push((walk.depth(), of.id()))),
                    Step::Unread(unread) => {
                        return Err(refused(Error::NoMemory.into())(unread.error));
                    }
                    _ => {}
                }
            }
            Ok(found)
        })
    });
    let ids =
        |depth: usize| found.iter().filter(move |found| found.0 == depth).map(|found| found.1);
    assert!(ids(0).eq([4, 0]) && ids(1).eq([6, 3, 4, 10, 0]) && ids(2).eq([6, 7, 10]));

    let walk = Walk::new(&component, 2).expect("a component");
    let views: Vec<_> = walk.items().map(|item| item.expect("it is read").view).collect();
    let copies = each_is_refused(9, |refusals| {
        refusals.call(|| kept(views.iter().map(|view| view.try_to_tree())))
    });
    assert_eq!(copies.len(), views.len());
}

#[test]
fn indices_of_a_core_type_are_visited() {
    let component = b"\0asm\x0d\0\x01\0\x03\x0c\x01\x60\x02\x64\0\x63\0\x02\x64\0\x63\0";
    let mut items =
        list(component).expect("it is listed").sections.into_iter().flat_map(|of| of.items);
    let item = items.next().expect("a type");
    let changed = each_is_refused(2, |refusals| {
        let mut item = calmly(|| item.clone());
        refusals.call(|| item.try_indices_mut(|used| *used.index = 7));
        item
    });
    let mut section = ItemSection::new(3);
    section.item(&changed).expect("there is memory");
    let mut component = Component::new();
    component.section(&section);
    assert_eq!(
        component.as_slice()[8..],
        *b"\x03\x0c\x01\x60\x02\x64\x07\x63\x07\x02\x64\x07\x63\x07"
    );
}

/// The component in the component.
fn nested(index: u8) -> ItemTree {
    let mut items =
        list(&component(index)).expect("it is listed").sections.into_iter().flat_map(|of| of.items);
    items.next().expect("a component")
}

fn without_memory(error: ReadError) -> Error {
    refused(Error::NoMemory.into())(error)
}

#[test]
fn outer_indices_are_visited() {
    let changed = each_is_refused(15, |refusals| {
        let mut item = calmly(|| nested(0));
        refusals.call(|| {
            let visited = item.outer_indices_mut(1, |used| *used.index = 1);
            calmly(|| assert!(visited.is_ok() || item == nested(0)));
            visited.map_err(without_memory)
        });
        item
    });
    assert_eq!(changed, nested(1));

    // an unchanged component isn't encoded again, and that memory isn't needed
    for n in 0.. {
        let mut item = nested(0);
        GRANTED.set(Some(n));
        let visited = item.outer_indices_mut(1, |_| {});
        let is_past = GRANTED.take().is_some();
        assert!(visited.is_ok() || !is_past && visited.map_err(without_memory).is_err());
        assert!(item == nested(0));
        if is_past {
            assert!(n > 10, "only {n} requests");
            break;
        }
    }
}
