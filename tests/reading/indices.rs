//! The indices that items contain. `tests/calls` visits those of each item.

use wenc::Sections;
use wenc::tree::{Command, ItemTree, build};
use wenc_calls::visited::{Seen, has_indices, visited};

/// The item contains these indices, in this order; so does its node, encoded
/// and read in place.
#[track_caller]
pub fn expect(item: ItemTree, indices: &[Seen]) {
    has_indices(&item, indices, &format!("{item:?}"));
    let component = build(&[Command::from(item.clone())]).expect("there is memory").bytes;
    let mut items = Sections::new(&component).expect("a component").items();
    let view = items.next().expect("it has an item").expect("it is read").view;
    assert_eq!(view.to_tree(), item);
    assert_eq!(visited(view.node()), indices, "{view:?}");
    assert!(items.next().is_none());
}
