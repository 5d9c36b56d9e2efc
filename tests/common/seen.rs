//! Whether a borrowed item equals an owned one.

use wenc::tree::{ItemTree, NameTree};
use wenc::view::{ItemView, NameView};
use wenc::{ComponentExternName, Listing, Sections};

/// Whether the borrowed item equals the owned one: both define the same indices, and a copy of the
/// one is the other.
pub fn is_same(view: ItemView<'_>, tree: &ItemTree) -> bool {
    view.defined_indices() == tree.defined_indices() && view.to_tree() == *tree
}

/// Whether the names are the same.
pub fn is_name(view: NameView<'_>, tree: &NameTree) -> bool {
    ComponentExternName::from(view) == ComponentExternName::from(tree)
}

/// The items are those of the listing. Returns how many there are.
#[track_caller]
pub fn are_items(sections: Sections<'_>, listing: &Listing) -> usize {
    let mut listed = listing.sections.iter().flat_map(|section| &section.items);
    let mut count = 0;
    for item in sections.items() {
        let (view, tree) = (item.expect("an item").view, listed.next().expect("an item"));
        assert!(is_same(view, tree), "{view:?} is not {tree:?}");
        count += 1;
    }
    assert!(listed.next().is_none());
    count
}
