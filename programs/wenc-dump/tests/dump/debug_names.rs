//! The debug names that follow the indices of an item, in each form that contains an index.

#[path = "../../../../tests/reading/scopes.rs"]
mod scopes;

use crate::dump;
use wenc::tree::{Command, ItemTree, NameTree, Scope, build};
use wenc::{
    Component, ComponentNameSection, ComponentSection, ComponentSectionId, DebugNames, RawSection,
    list,
};
use wenc_calls::call::{Seen, here};
use wenc_calls::hex::bytes;
use wenc_calls::sections;

fn text(text: &str) -> String {
    text.into()
}

fn name(text: &str) -> NameTree {
    NameTree::from(text)
}

/// The debug name of an index, where its scope has names.
fn named(&(space, scope, index): &Seen) -> Option<String> {
    match scope {
        Scope::Component(out @ (0 | 1)) => Some(format!("@{out}{space:?}{index}@")),
        _ => None,
    }
}

/// A section with the names of those of these indices that are this many components further out.
fn names_section(indices: &[Seen], out: u32) -> ComponentNameSection {
    let mut names = DebugNames::new();
    for seen in indices.iter().filter(|(_, scope, _)| *scope == Scope::Component(out)) {
        names.insert(seen.0, seen.2, named(seen).expect("it has one"));
    }
    ComponentNameSection::from(&names)
}

/// What is printed of the item after its own index, in a component in another, where both have
/// names.
fn printed(item: &ItemTree, indices: &[Seen]) -> String {
    let mut inner = build(&[Command::from(item.clone())]).expect("there is memory").bytes;
    names_section(indices, 0).append_to_component(&mut inner);
    let mut outer = Component::new();
    let id = ComponentSectionId::Component.into();
    outer.section(&RawSection { id, data: &inner }).section(&names_section(indices, 1));
    let (status, text, _) = dump(&[], &outer.finish());
    assert_eq!(status, 0);
    let (_, item) = text.split_once("        0x").expect("the item is there");
    // the sections of names, which are printed too, come after it
    let item = item.split(" custom section, ").next().unwrap_or_default();
    item.split_once(": ").map(|(_, item)| item.to_owned()).unwrap_or_default()
}

/// The item is printed with the names of these indices.
fn expect(item: ItemTree, indices: &[Seen]) {
    let text = printed(&item, indices);
    let mut printed: Vec<&str> = text.split('"').filter(|part| part.starts_with('@')).collect();
    let mut expected: Vec<String> = indices.iter().filter_map(named).collect();
    printed.sort_unstable();
    expected.sort_unstable();
    assert_eq!(printed, expected, "{text}");
    // each name follows its index
    for seen in indices {
        if let Some(name) = named(seen) {
            let follows = [" ", ") "].map(|space| format!("{}{space}\"{name}\"", seen.2));
            assert!(follows.iter().any(|follows| text.contains(follows)), "{text}");
        }
    }
}

#[test]
fn items_of_worked_components() {
    let mut found = 0;
    for row in sections::ROWS {
        let component = [&Component::HEADER[..], &bytes(row.sections)].concat();
        for mut item in
            list(&component).expect("it is listed").sections.into_iter().flat_map(|of| of.items)
        {
            // a module, a component and a custom section are printed in parts
            if matches!(item, ItemTree::Module(_) | ItemTree::Component(_))
                || matches!(item, ItemTree::Custom { .. })
            {
                continue;
            }
            let mut indices = Vec::new();
            item.indices_mut(|used| {
                // they are to differ
                *used.index = 100 + indices.len() as u32;
                indices.push((used.space, used.scope, *used.index));
            });
            found += indices.len();
            expect(item, &indices);
        }
    }
    assert!(found > 170, "{found} indices");
}
