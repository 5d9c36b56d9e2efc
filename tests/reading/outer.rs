//! Nested components, which refer to those around them.

use crate::Seen;
use wenc::tree::{ItemTree, Scope, Space};
use wenc::view::ItemView;
use wenc::{Cause, Error, Part, ReadError};

fn component(sections: &[&[u8]]) -> Vec<u8> {
    crate::component(&sections.concat())
}

/// A component section with a component with these sections.
fn nested(sections: &[&[u8]]) -> Vec<u8> {
    crate::nested(&sections.concat())
}

fn item(bytes: &[u8]) -> ItemTree {
    ItemTree::Component(bytes.to_vec())
}

/// Outer aliases: of a core module in this component, a core type one component out, a type two
/// out, and a component three out.
fn aliases(indices: [u8; 4]) -> Vec<u8> {
    let [module, core_type, ty, component] = indices;
    [
        &[0x06, 0x13, 0x04][..],
        &[0x00, 0x11, 0x02, 0x00, module, 0x00, 0x10, 0x02, 0x01, core_type],
        &[0x03, 0x02, 0x02, ty, 0x04, 0x02, 0x03, component],
    ]
    .concat()
}

/// An instance type with an outer alias of a type, this many scopes further out.
fn ty(count: u8, index: u8) -> Vec<u8> {
    [&[0x07, 0x08, 0x01, 0x42, 0x01, 0x02][..], &[0x03, 0x02, count, index]].concat()
}

/// A section whose size has a byte more than it needs.
const PADDED: &[u8] = b"\x06\x81\x00\x00";

/// The visited indices, with those of the enclosing component increased by this.
fn raise(item: &mut ItemTree, by: u32) -> Vec<Seen> {
    let mut seen = borrowed(item).expect("it is read");
    let seen_first = std::mem::take(&mut seen);
    let visited = item.outer_indices_mut(1, |used| {
        seen.push((used.space, used.scope, *used.index));
        if used.scope == Scope::Component(0) {
            *used.index += by;
        }
    });
    assert_eq!(visited, Ok(()));
    assert_eq!(seen, seen_first);
    seen
}

/// The indices that are visited in the borrowed item.
fn borrowed(item: &ItemTree) -> Result<Vec<Seen>, ReadError> {
    let ItemTree::Component(bytes) = item else { return Ok(Vec::new()) };
    let mut seen = Vec::new();
    ItemView::Component(bytes)
        .outer_indices(1, |used| seen.push((used.space, used.scope, used.index)))?;
    Ok(seen)
}

#[test]
fn what_counts_in_components_around_is_visited() {
    let inner = |at| nested(&[PADDED, &aliases([1, 2, at, 4]), &ty(3, at)]);
    let bytes = |at| component(&[&ty(1, 9), &aliases([1, at, 3, 4]), &ty(2, at), &inner(at)]);
    let mut of = item(&bytes(3));
    let (here, out) = (Scope::Component(0), Scope::Component(1));
    let seen = [
        // the types and aliases of the component itself
        (Space::CoreTypes, here, 3),
        (Space::Types, out, 3),
        (Space::Components, Scope::Component(2), 4),
        (Space::Types, here, 3),
        // those of the one in it, which is one further in
        (Space::Types, here, 3),
        (Space::Components, out, 4),
        (Space::Types, here, 3),
    ];
    assert_eq!(raise(&mut of, 0), seen);
    assert_eq!(of, item(&bytes(3)), "nothing was changed");
    raise(&mut of, 2);
    // what was changed is encoded again, without the byte too many
    let ItemTree::Component(again) = &of else { panic!("a component") };
    let inner = nested(&[&aliases([1, 2, 5, 4]), &ty(3, 5)]);
    let expected = component(&[&ty(1, 9), &aliases([1, 5, 3, 4]), &ty(2, 5), &inner]);
    assert_eq!(again.as_slice(), expected);
}

#[test]
fn what_has_no_such_index_keeps_its_bytes() {
    let bytes =
        component(&[PADDED, &ty(0, 3), &ty(1, 3), &nested(&[PADDED, &ty(1, 3), &ty(2, 3)])]);
    let mut of = item(&bytes);
    assert_eq!(raise(&mut of, 5), []);
    assert_eq!(of, item(&bytes));
    let mut module = ItemTree::Module(component(&[&aliases([1, 2, 3, 4])]));
    assert_eq!(raise(&mut module, 5), []);
}

fn told(bytes: &[u8], limit: usize) -> Result<(), ReadError> {
    let mut of = item(bytes);
    let told = of.outer_indices_mut(limit, |used| *used.index += 1);
    assert!(told.is_ok() || of == item(bytes), "it is as it was");
    told
}

#[test]
fn faults_are_told() {
    let one = component(&[&ty(2, 3)]);
    let two = component(&[&ty(2, 3), &nested(&[&ty(3, 3)])]);
    let three = component(&[&ty(2, 3), &nested(&[&ty(3, 3), &nested(&[])])]);
    assert_eq!([&one, &two, &three].map(|bytes| told(bytes, 2)), [Ok(()); 3]);
    assert_eq!([&one, &two].map(|bytes| told(bytes, 1)), [Ok(()); 2]);
    assert_eq!(told(&one, 0), Ok(()));
    // in the section at 18
    for (bytes, limit, offset) in [(&two, 0, 20), (&three, 1, 40), (&three, 0, 20)] {
        let error = told(bytes, limit).expect_err("it is too deep");
        assert_eq!((error.part, error.cause), (Part::Depth, Cause::Limit(limit)));
        assert_eq!(error.offset, offset);
    }

    assert_eq!(told(b"", 1).expect_err("it is none").part, Part::Header);
    let bad = component(&[&ty(2, 3), &nested(&[b"\x06"])]);
    let fault = told(&bad, 1).expect_err("it can't be read").to_string();
    assert_eq!(fault, "bad section at 0x1c: the bytes end at 0x1d");
    // more values than there are indices
    let start = b"\x09\x07\x00\x00\xff\xff\xff\xff\x0f";
    assert_eq!(told(&component(&[&ty(2, 3), start, start]), 1), Err(Error::TooMany.into()));
    assert_eq!(told(&component(&[&ty(1, 3), start, start]), 1), Ok(()));
}
