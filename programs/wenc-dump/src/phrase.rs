//! Nodes that are printed as phrases in text.

use wenc::tree::{Fields, Node};

/// Returns the node of an item without the item's kind, which its section says.
pub fn of_item(item: Node) -> Node {
    match item {
        Node::Variant(_, child) => child.node(),
        Node::Struct(name, fields) => Node::Record(name, fields),
        node => node,
    }
}

/// Returns whether a struct with this name is printed as a phrase.
pub fn is_phrase(name: &str) -> bool {
    matches!(name, "NameTree" | "Start" | "Import" | "Export")
}

/// Returns the fields that are in the phrase of the struct with this name, with the words before
/// each. An absent one is left out.
pub fn fields_of<'a>(
    name: &str,
    fields: Fields<'a>,
) -> impl Iterator<Item = (&'static str, Node<'a>)> {
    fields.iter().enumerate().filter_map(move |(at, (key, child))| {
        let words = match (name, at, key) {
            ("Start", 0, _) => "start of",
            ("Start", _, "args") => "with",
            ("Start", _, "results") => return None,
            ("Import", 0, _) => "import",
            ("Export", 0, _) => "export",
            ("Export", _, "ty") => "as",
            ("NameTree", 1.., _) => key,
            _ => "",
        };
        match child.node() {
            Node::Absent => None,
            Node::Present(child) => Some((words, child.node())),
            node => Some((words, node)),
        }
    })
}
