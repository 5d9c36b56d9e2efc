//! Components section by section and item by item.

use std::ops::Range;
use wenc::tree::ItemTree;
use wenc::{Component, Error, ItemSection, SectionReader, Sections};

/// The sections of a component, all of which are framed.
pub fn sections(bytes: &[u8]) -> impl Iterator<Item = SectionReader<'_>> {
    Sections::new(bytes).expect("a component").map(|section| section.expect("a section"))
}

/// The component that has, for each section of this one, that with each item added by this call: an
/// item with its byte offsets.
pub fn by_items(
    bytes: &[u8],
    mut add: impl FnMut(&mut ItemSection, Range<usize>, ItemTree) -> Result<(), Error>,
) -> Vec<u8> {
    let mut component = Component::new();
    for section in sections(bytes) {
        let mut made = ItemSection::new(section.id());
        for item in section.items() {
            let item = item.expect("an item");
            add(&mut made, item.range, item.view.to_tree()).expect("it is added");
        }
        assert_eq!(made.len(), section.count());
        component.section(&made);
    }
    component.finish()
}
