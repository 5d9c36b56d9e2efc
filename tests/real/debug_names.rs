//! The debug names of the corpus: read out of their section, given to the builder once more, and
//! written by it.

use crate::rebuilt;
use wenc::tree::{ItemTree, Space};
use wenc::{ComponentBuilder, DebugNames, Listing, Sections, list};

/// The bytes after the name of a section of names.
fn section(item: &ItemTree) -> Option<&[u8]> {
    match item {
        ItemTree::Custom { name, data } if &**name == DebugNames::SECTION => Some(data),
        _ => None,
    }
}

/// The component's items once more, with these debug names: the section of them that the builder
/// writes.
fn written(listing: &Listing, names: &DebugNames) -> ItemTree {
    let (mut builder, mut next) = (ComponentBuilder::default(), [0; 13]);
    for item in listing.sections.iter().flat_map(|of| &of.items) {
        let name = item.defined_indices().and_then(|(space, count)| {
            let next: &mut u32 = &mut next[space.number()];
            *next += count;
            names.get(space, *next - count)
        });
        if section(item).is_some() {
            builder.append_names();
        } else {
            builder.item(name, item);
        }
    }
    let bytes = builder.finish();
    let mut sections = Sections::new(&bytes).expect("it is a component");
    let mut sections = std::iter::from_fn(|| sections.next_raw());
    let name = [&[0x0e], DebugNames::SECTION.as_bytes()].concat();
    let data = sections.find_map(|(_, section)| section.data.strip_prefix(&*name));
    let data = data.expect("there are names").to_vec();
    ItemTree::Custom { name: DebugNames::SECTION.into(), data }
}

/// Whether these are the other bytes with some of them said twice: upstream writes the names of
/// instances twice.
fn says_twice(bytes: &[u8], other: &[u8]) -> bool {
    let Some(len) = bytes.len().checked_sub(other.len()).filter(|len| *len > 0) else {
        return false;
    };
    (0..=other.len()).any(|at| {
        let (front, (said, behind)) = (&bytes[..at], bytes[at..].split_at(len));
        other == [front, behind].concat() && other.windows(len).any(|bytes| bytes == said)
    })
}

/// Components with a function that has another name by now, which the builder gives it.
const RENAMED: [(&str, &str, &str); 2] = [
    ("37-thread-suspend-to", "thread.suspend-to", "thread.suspend-then-promote"),
    ("37-thread-yield-to-suspended", "thread.yield-to-suspended", "thread.yield-then-resume"),
];

#[test]
fn debug_names_are_written_again() {
    let (mut equal, mut but_twice, mut renamed) = (0, 0, 0);
    for (name, bytes) in rebuilt::all() {
        let Ok(listing) = list(&bytes) else { continue };
        let mut items = listing.sections.iter().flat_map(|of| &of.items);
        let Some(data) = items.find_map(section) else { continue };
        let mut names = DebugNames::of(&bytes);
        let again = written(&listing, &names);
        let written = section(&again).expect("it has names");
        if let Some((_, old, new)) = RENAMED.iter().find(|(of, ..)| *of == name) {
            let (_, index, _) = names.iter().find(|(.., name)| name == old).expect("the old name");
            names.insert(Space::CoreFuncs, index, *new);
            renamed += 1;
        } else if written == data {
            equal += 1;
        } else {
            assert!(says_twice(data, written), "{name}: other names");
            but_twice += 1;
        }
        let mut read = DebugNames::new();
        read.read(&again).expect("they are read");
        assert!(read == names, "{name}");
    }
    assert_eq!((equal, but_twice, renamed), (15, 23, 2));
}
