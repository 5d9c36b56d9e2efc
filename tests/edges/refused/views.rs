//! Borrowed items, while every allocation fails.

use super::GRANTED;
use crate::corpus;
use crate::hex::bytes;
use crate::spellings::ROWS;
use std::hash::{DefaultHasher, Hash, Hasher};
use std::hint::black_box;
use wenc::tree::{ItemTree, UsedIndex};
use wenc::view::ItemView;
use wenc::*;

/// The corpus's components, and one for each row of sections that no encoder writes.
fn components() -> Vec<Vec<u8>> {
    let rows = ROWS.iter().map(|(wide, _)| [&Component::HEADER[..], &bytes(wide)].concat());
    corpus::components().into_iter().map(|(_, bytes)| bytes).chain(rows).collect()
}

/// Reads the items of a component up to the first error, with each member of each list. Returns
/// whether all are read.
fn walk<'a>(bytes: &'a [u8], found: &mut Vec<(u8, ItemView<'a>)>) -> Result<(), ReadError> {
    let mut members = DefaultHasher::new();
    for section in Sections::new(bytes)? {
        let section = section?;
        for item in section.items() {
            let item = item?;
            item.hash(&mut members);
            found.push((section.id(), item.view));
        }
    }
    black_box(members.finish());
    Ok(())
}

/// Sections and items are read without memory.
#[test]
fn nothing_is_asked_for() {
    let (mut walked, mut ids) = (0, [0; 12]);
    for bytes in components() {
        let mut found = Vec::with_capacity(2000);
        GRANTED.set(Some(0));
        let result = walk(&bytes, &mut found);
        let asked = GRANTED.take() != Some(0);
        assert!(!asked, "{result:?}");
        found.iter().for_each(|(id, _)| ids[usize::from(*id)] += 1);
        walked += u32::from(result.is_ok());
    }
    assert!(walked > 60 && ids.iter().all(|count| *count > 0), "{walked} {ids:?}");
}

/// The indices of an owned item, in the order in which they are encoded.
fn indices_of(tree: &mut ItemTree) -> Vec<UsedIndex> {
    let mut indices = Vec::new();
    tree.indices_mut(|used| {
        let (space, scope, index) = (used.space, used.scope, *used.index);
        indices.push(UsedIndex { space, scope, index, count: None });
    });
    indices
}

/// Expects that the indices and nodes of borrowed items don't allocate and equal those of owned
/// items. Returns the number of items and of indices.
fn expect_indices(bytes: &[u8]) -> (usize, usize) {
    let mut found = (0, 0);
    for step in Walk::new(bytes, 8).expect("a component") {
        let Step::Item(Item { view, .. }) = step else { continue };
        let mut tree = view.to_tree();
        let wanted = indices_of(&mut tree);
        let mut indices = Vec::with_capacity(wanted.len() + 1);
        GRANTED.set(Some(0));
        view.node().each_index(|used| indices.push(used));
        let asked = GRANTED.take() != Some(0);
        assert!(!asked && indices == wanted, "{view:?}");
        assert_eq!(view.to_tree(), tree);
        found = (found.0 + 1, found.1 + indices.len());
    }
    found
}

/// Indices and nodes don't allocate, and equal those of owned items.
#[test]
fn indices_are_those_of_owned_items() {
    let found = components().into_iter().map(|bytes| expect_indices(&bytes));
    let (items, indices) = found.fold((0, 0), |sum, found| (sum.0 + found.0, sum.1 + found.1));
    assert!(items > 1500 && indices > 2700, "{items} {indices}");
}

/// The same holds for types that are as deep as can be read.
#[test]
fn indices_in_deep_types_are_those_of_owned_ones() {
    // at each depth, an outer alias of a type of the component, and of the type around it
    let mut ty = b"\x42\0".to_vec();
    for depth in (1..=99).rev() {
        let mut around = b"\x42\x03\x02\x03\x02".to_vec();
        around.extend([depth, 5, 2, 3, 2, 1, 7, 1]);
        ty = [around, ty].concat();
    }
    let mut component = Component::new();
    component.section(&RawSection { id: 7, data: &[&[1][..], &ty].concat() });
    assert_eq!(expect_indices(&component.finish()), (1, 198));
}
