//! Recursion groups of core types: readers count each of their types, as the standard does. The
//! counts of a listing are upstream's, for which a group is one type.

use crate::out_of_range::expect;
use crate::{component, nested, section};
use wenc::scope::Definitions;
use wenc::tree::{IndexCounts, Scope, Space};
use wenc::{Sections, list};

/// A group of a function, a structure and an array, and a function with a parameter.
const GROUP: &[u8] = b"\x4e\x03\x60\0\0\x5f\0\x5e\x7f\0";
const FUNCTION: &[u8] = b"\x60\x01\x7f\0";

const TYPES: Space = Space::CoreTypes;

/// The section of both, of 17 bytes.
fn types() -> Vec<u8> {
    section(3, &[&[2], GROUP, FUNCTION].concat())
}

/// The byte offset of the item that has this index of a core type.
fn at(component: &[u8], index: u32) -> Option<usize> {
    let definitions = Definitions::new(component, 0).expect("it is read");
    let definitions = definitions.instances();
    definitions.component().get(TYPES, index).ok().map(|found| found.place())
}

#[test]
fn each_type_has_its_definition() {
    let bytes = component(&types());
    let wanted = [Some(11), Some(11), Some(11), Some(21), None];
    assert_eq!([0, 1, 2, 3, 4].map(|index| at(&bytes, index)), wanted);
    let listing = list(&bytes).expect("it is listed");
    assert_eq!(listing.sections[0].items.len(), 2);
    let definitions = Definitions::new(&bytes, 0).expect("it is read");
    let definitions = definitions.instances();
    let group = definitions.component().get(TYPES, 2).expect("it is in the group");
    assert_eq!(
        (group.index(), group.count(), definitions.component().count(TYPES)),
        (Some(0), 3, Some(4))
    );
}

#[test]
fn each_type_is_counted() {
    let bytes = component(&types());
    let sections = Sections::new(&bytes).expect("a component");
    let mut walk = wenc::Walk::new(&bytes, 0).and_then(wenc::Walk::counted).expect("a component");
    assert_eq!(walk.by_ref().count(), 3);
    assert_eq!([TYPES, Space::Types].map(|space| walk.counts().of(space)), [Some(4), Some(0)]);
    let (mut counts, mut found) = (IndexCounts::default(), Vec::new());
    for item in sections.items() {
        let item = item.expect("it is read").view;
        assert_eq!(item.defined_indices(), item.to_tree().defined_indices());
        found.push(item.defined_indices());
        counts.add(&item);
    }
    assert_eq!(found, [Some((TYPES, 3)), Some((TYPES, 1))]);
    assert_eq!(counts.of(TYPES), Some(4));
    let mut again = IndexCounts::default();
    found.into_iter().for_each(|defined| again.define(defined));
    assert_eq!(again, counts);
}

/// A group without types defines nothing.
#[test]
fn an_empty_group() {
    let bytes = component(&section(3, b"\x02\x4e\0\x5f\0"));
    assert_eq!([0, 1].map(|index| at(&bytes, index)), [Some(13), None]);
    let definitions = Definitions::new(&bytes, 0).expect("it is read");
    let definitions = definitions.instances();
    let group = definitions.component().definitions().next().expect("the group");
    assert_eq!((group.space(), group.index(), group.count()), (Some(TYPES), None, 0));
}

/// Threads are spawned by references to the functions of core types 3 and 4.
const SPAWNED: &[u8] = b"\x08\x05\x02\x40\x03\x40\x04";

#[test]
fn indices_of_a_component() {
    let here = Scope::Component(0);
    expect(&[&types(), SPAWNED].concat(), &[(30, TYPES, here, 4, 4)]);
}

/// A nested component with such types, and aliases of core types 3 and 4 around it. Behind it, the
/// types are still those of the one around it.
#[test]
fn indices_of_nested_components() {
    let aliases = section(6, b"\x02\0\x10\x02\x01\x03\0\x10\x02\x01\x04");
    let inner = nested(&[&types(), SPAWNED, &aliases].concat());
    let [here, around] = [0, 1].map(Scope::Component);
    let missing = [(57, TYPES, here, 4, 4), (67, TYPES, around, 4, 4), (77, TYPES, here, 4, 4)];
    expect(&[&types(), &inner[..], SPAWNED].concat(), &missing);
}

/// The types of components, instances and modules have core types of their own.
#[test]
fn indices_of_declared_types() {
    let own = Scope::Type(1);
    for kind in [0x41, 0x42] {
        // aliases of core types 3, which is then the fifth, and 5 of the type itself
        let aliases = b"\x02\0\x10\x02\0\x03\x02\0\x10\x02\0\x05";
        let ty = [&[1, kind, 4, 0], GROUP, b"\0", FUNCTION, aliases].concat();
        expect(&section(7, &ty), &[(11, TYPES, own, 5, 5)]);
    }
    let imports = b"\0\x01a\x01b\0\x03\0\x01a\x01b\0\x04";
    let ty = [b"\x01\x50\x04\x01", GROUP, b"\x01", FUNCTION, imports].concat();
    expect(&section(3, &ty), &[(11, TYPES, own, 4, 4)]);
}
