//! The indices in an item.

use wenc::tree::{ItemTree, Node, Scope, Space, UsedIndex};

/// An index that an item has: its space, the scope of that, and itself.
pub type Seen = (Space, Scope, u32);

/// Adds the indices in the node.
fn add_indices(node: Node, seen: &mut Vec<Seen>) {
    match node {
        Node::Index { space, scope, index } => seen.push((space, scope, index)),
        Node::Present(child) | Node::Variant(_, child) => add_indices(child.node(), seen),
        Node::List(list) => list.for_each(|child| add_indices(child.node(), seen)),
        Node::Tuple(fields) | Node::Record(_, fields) | Node::Struct(_, fields) => {
            fields.iter().for_each(|(_, child)| add_indices(child.node(), seen));
        }
        _ => {}
    }
}

/// The indices that are visited of the node, in order. Its fields have the same.
pub fn visited(node: Node) -> Vec<Seen> {
    let mut seen = Vec::new();
    node.each_index(|UsedIndex { space, scope, index, count }| {
        assert_eq!(count, None, "the scopes aren't known");
        seen.push((space, scope, index));
    });
    let mut of_fields = Vec::new();
    add_indices(node, &mut of_fields);
    assert!(sorted(of_fields) == sorted(seen.clone()), "{node:?}");
    seen
}

/// Adds a number to each index of the item. Returns what they were.
fn raised(item: &mut ItemTree, by: u32) -> Vec<Seen> {
    let mut seen = Vec::new();
    item.indices_mut(|used| {
        seen.push((used.space, used.scope, *used.index));
        *used.index = used.index.wrapping_add(by);
    });
    seen
}

/// In an order that doesn't depend on that of fields.
fn sorted(mut seen: Vec<Seen>) -> Vec<Seen> {
    seen.sort_by_key(|(space, scope, index)| {
        let scope = match scope {
            Scope::Component(count) => (0, *count),
            Scope::Type(depth) => (1, *depth),
        };
        (space.number(), scope, *index)
    });
    seen
}

/// The item contains these indices, in this order, and each can be changed. A difference isn't
/// printed, as it may be long.
#[track_caller]
pub fn has_indices(item: &ItemTree, wanted: &[Seen], what: &str) {
    let mut changed = item.clone();
    assert!(raised(&mut changed, 0) == wanted && changed == *item, "{what}: nothing was changed");
    assert!(raised(&mut changed, 1000) == wanted, "{what}: to be changed");
    assert_eq!(changed != *item, !wanted.is_empty(), "{what}: changed");
    let more = wanted.iter().map(|(of, from, at)| (*of, *from, at.wrapping_add(1000)));
    assert!(raised(&mut changed, 1000_u32.wrapping_neg()).into_iter().eq(more), "{what}: raised");
    assert!(changed == *item, "{what}: nothing else was changed");
}
