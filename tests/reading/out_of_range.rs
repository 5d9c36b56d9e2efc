//! Indices that are out of range: what each declaration defines, and where.

use crate::{component, nested, section};
use wenc::tree::{IndexCounts, Node, Scope, Scopes, Space};
use wenc::view::ItemView;
use wenc::{OutOfRange, Part, ReadError, Sections, Walk};

fn found(component: &[u8]) -> Result<Vec<OutOfRange>, ReadError> {
    Walk::new(component, 100)?.out_of_range().collect()
}

/// Expects that these indices are out of range: each with the byte offset of its item, its space,
/// its scope, and how many there are.
#[track_caller]
pub fn expect(sections: &[u8], wanted: &[(usize, Space, Scope, u32, u64)]) {
    let found = found(&component(sections)).expect("it is read");
    let found: Vec<_> =
        found.iter().map(|of| (of.place, of.space, of.scope, of.index, of.count)).collect();
    assert_eq!(found, wanted);
}

const HERE: Scope = Scope::Component(0);

#[test]
fn each_index_of_an_item_is_told() {
    // the type of a function from type 1 to a tuple of types 0, 2 and 3
    let function = b"\x01\x40\x01\x01a\x01\0\x02";
    let tuple = b"\x01\x6f\x03\0\x02\x03";
    let sections = [section(7, function), section(7, tuple)].concat();
    expect(
        &sections,
        &[
            (11, Space::Types, HERE, 1, 0),
            (11, Space::Types, HERE, 2, 0),
            (21, Space::Types, HERE, 2, 1),
            (21, Space::Types, HERE, 3, 1),
        ],
    );
}

/// The declarations that define an index, each with its space.
const DEFINITIONS: [(&[u8], Space); 21] = [
    (b"\0\x60\0\0", Space::CoreTypes),
    (b"\0\x50\0", Space::CoreTypes),
    (b"\x01\x79", Space::Types),
    (b"\x01\x3f\x7f\0", Space::Types),
    (b"\x02\0\x11\0\0\x01m", Space::CoreModules),
    (b"\x02\x03\0\0\x01t", Space::Types),
    (b"\x02\x04\0\0\x01c", Space::Components),
    (b"\x02\x05\0\0\x01i", Space::Instances),
    (b"\x02\0\x10\x02\x01\0", Space::CoreTypes),
    (b"\x02\0\x11\x02\x01\0", Space::CoreModules),
    (b"\x02\x03\x02\x01\0", Space::Types),
    (b"\x02\x04\x02\x01\0", Space::Components),
    (b"\x03\0\x01m\0\x11\0", Space::CoreModules),
    (b"\x03\0\x01t\x03\x01", Space::Types),
    (b"\x03\0\x01i\x05\0", Space::Instances),
    (b"\x03\0\x01c\x04\0", Space::Components),
    (b"\x04\0\x01m\0\x11\0", Space::CoreModules),
    (b"\x04\0\x01t\x03\0\0", Space::Types),
    (b"\x04\0\x01i\x05\0", Space::Instances),
    (b"\x04\0\x01c\x04\0", Space::Components),
    (b"\x04\0\x01r\x03\x01", Space::Types),
];

/// Declarations that use the first index of a space of the type itself.
const USES: [(&[u8], Space); 5] = [
    (b"\x02\0\x11\x02\0\0", Space::CoreModules),
    (b"\x02\0\x10\x02\0\0", Space::CoreTypes),
    (b"\x02\x04\x02\0\0", Space::Components),
    (b"\x02\x05\0\0\x01i", Space::Instances),
    (b"\x01\x70\0", Space::Types),
];

/// Returns the indices in a space of the outermost type that are out of range.
fn in_type(declared: &[&[u8]], space: Space) -> Vec<(u32, u64)> {
    let count = u8::try_from(declared.len()).expect("they are few");
    let ty = [&[1, 0x41, count], &declared.concat()[..]].concat();
    let found = found(&component(&section(7, &ty))).expect("it is read");
    let found = found.iter().filter(|of| (of.space, of.scope) == (space, Scope::Type(1)));
    found.map(|of| (of.index, of.count)).collect()
}

#[test]
fn each_declaration_defines_its_index() {
    let mut compared = 0;
    for (definition, space) in DEFINITIONS {
        for (used, of) in USES {
            // the index that the definition itself uses may be missing, too
            let own = in_type(&[definition], of);
            let behind = in_type(&[definition, used], of);
            assert_eq!(behind == own, space == of, "{definition:x?} {used:x?}");
            assert_eq!(in_type(&[used, definition], of).first(), Some(&(0, 0)), "{used:x?}");
            compared += 1;
        }
    }
    assert_eq!(compared, 105);
}

/// The types of a group refer to each other, and have an index each; so does a type by itself.
#[test]
fn recursion_groups() {
    let reference = |index| [0x60, 1, 0x63, index, 0];
    let group = |indices: [u8; 2]| [&b"\x4e\x02"[..], &indices.map(reference).concat()].concat();
    let of = |first: Vec<u8>, last: u8| section(3, &[&[2][..], &first, &reference(last)].concat());
    expect(&of(group([1, 0]), 2), &[]);
    expect(
        &of(group([1, 2]), 3),
        &[(11, Space::CoreTypes, HERE, 2, 2), (23, Space::CoreTypes, HERE, 3, 3)],
    );
}

/// The types of a module type are its own. Its aliases are of what is before it.
#[test]
fn module_types() {
    // a function type, an alias of core type 0 around it, an import of a function of each, and of
    // another; then an alias of core type 1, which it is itself
    let module = b"\x50\x06\x01\x60\0\0\x02\x10\x01\x01\0\0\x01a\x01b\0\0\0\x01a\x01b\0\x01\
        \0\x01a\x01b\0\x02\x02\x10\x01\x01\x01";
    let sections = section(3, &[&b"\x02\x60\0\0"[..], module].concat());
    expect(
        &sections,
        &[(14, Space::CoreTypes, Scope::Type(1), 2, 2), (14, Space::CoreTypes, HERE, 1, 1)],
    );
}

/// Types in types: each has spaces of its own, and outer aliases look outwards.
#[test]
fn types_in_types() {
    // a type; an instance type with a type and an instance type, which has a list of its type 0,
    // aliases of type 0 to 2 further out, and a list of its type 4
    let inner =
        b"\x01\x42\x05\x01\x70\0\x02\x03\x02\x01\0\x02\x03\x02\x02\0\x02\x03\x02\x03\0\x01\x70\x04";
    let ty = [&b"\x02\x79\x42\x02\x01\x79"[..], inner].concat();
    expect(
        &section(7, &ty),
        &[
            (12, Space::Types, Scope::Type(2), 0, 0),
            (12, Space::Types, Scope::Component(1), 0, 0),
            (12, Space::Types, Scope::Type(2), 4, 4),
        ],
    );
}

#[test]
fn nested_components() {
    // aliases of type 0 of the component around, and of component 0 there, which it is itself
    let aliases = section(6, b"\x02\x03\x02\x01\0\x04\x02\x01\0");
    let missing = [
        (21, Space::Types, Scope::Component(1), 0, 0),
        (25, Space::Components, Scope::Component(1), 0, 0),
    ];
    expect(&nested(&aliases), &missing);
    let moved =
        missing.map(|(place, space, scope, index, count)| (place + 4, space, scope, index, count));
    let ty = section(7, b"\x01\x79");
    expect(&[ty, nested(&aliases)].concat(), &moved[1..]);
    // behind it, it is defined, even if it is empty
    let instance = |index| section(5, &[1, 0, index, 0]);
    expect(
        &[nested(b""), instance(0), instance(1)].concat(),
        &[(27, Space::Components, HERE, 1, 1)],
    );
    expect(
        &[nested(&nested(b"")), instance(0), instance(1)].concat(),
        &[(37, Space::Components, HERE, 1, 1)],
    );
}

#[test]
fn faults_end_it() {
    // a list of type 9, and an item that is none
    let sections = section(7, b"\x02\x70\x09\x01");
    let bytes = component(&sections);
    let mut all = Walk::new(&bytes, 0).expect("a component").out_of_range();
    let first = all.next().expect("it is found").expect("it is read");
    assert_eq!((first.place, first.index, first.count), (11, 9, 0));
    assert!(matches!(all.next(), Some(Err(error)) if error.part == Part::Item(1)));
    assert!(all.next().is_none() && all.next().is_none());

    let bytes = component(&nested(b""));
    let deep: Vec<_> = Walk::new(&bytes, 0).expect("a component").out_of_range().collect();
    assert!(matches!(deep[..], [Err(error)] if error.part == Part::Depth));
    assert_eq!(found(&bytes), Ok(vec![]));
}

/// Thousands of indices of one item, of which the last is out of range, and of as many items.
#[test]
fn many() {
    for count in [127_u32, 128, 16_383, 16_384] {
        let leb = |number: u32| {
            [(number & 0x7f) as u8 | 0x80, (number >> 7 & 0x7f) as u8 | 0x80, (number >> 14) as u8]
        };
        let mut types =
            [&leb(count)[..], &b"\x79".repeat(count as usize - 1), b"\x6f\x02"].concat();
        types.extend([leb(count - 2), leb(count - 1)].concat());
        let mut component = wenc::Component::new();
        component.section(&wenc::RawSection { id: 7, data: &types });
        let found = found(&component.finish()).expect("it is read");
        let [found] = found[..] else { panic!("{found:?}") };
        assert_eq!((found.index, found.count), (count - 1, u64::from(count) - 1));
    }
}

/// After an item that can't be read, no index is out of range.
#[test]
fn unknown_counts() {
    let bytes = component(&section(7, b"\x01\x70\x09"));
    let items = Sections::new(&bytes).expect("a component").items();
    let item = items.flatten().next().expect("one").view;
    let mut counts = [IndexCounts::default()];
    let is_marked = |counts: &[IndexCounts], item: &ItemView| {
        let scopes = Scopes::new(counts);
        let node = format!("{:?}", item.node_in(&scopes));
        assert!(matches!(item.node_in(&scopes), Node::Variant("Type", _)));
        node.contains("OutOfRange { space: Types, scope: Component(0), index: 9, count: 0 }")
    };
    assert!(is_marked(&counts, &item));
    assert!(is_marked(&[], &item), "there is no component");
    assert_eq!(counts[0].of(Space::Types), Some(0));
    counts[0].add_unknown();
    assert!(!is_marked(&counts, &item));
    counts[0].add(&item);
    assert_eq!(Space::ALL.map(|space| counts[0].of(space)), [None; 13]);
}
