//! Real components, by all that reads them.

use crate::corpus;
use crate::seen::{are_items, is_same};
use wenc::scope::{Definitions, Meaning};
use wenc::tree::{IndexCounts, ItemTree, Space};
use wenc::view::ItemView;
use wenc::*;
use wenc_calls::encoded::encoded;

/// How many there are.
#[derive(Debug, Default, PartialEq)]
struct Found {
    components: usize,
    items: usize,
    nested: usize,
    modules: usize,
    module_sections: usize,
    producers: usize,
    tools: usize,
}

#[test]
fn components() {
    let mut all = Found::default();
    for (_, bytes) in corpus::components() {
        let Ok(listing) = list(&bytes) else { continue };
        let sections = Sections::new(&bytes).expect("a component");
        all.components += 1;
        all.items += are_items(sections, &listing);
        are_counted(&bytes, &listing);
        are_defined(&bytes, &listing);
        are_read_on(&bytes);
        are_nested(&bytes, &mut all);
        items_of(&listing).for_each(|item| are_in_modules(item, &mut all));
    }
    let wanted = Found {
        components: 40,
        items: 1840,
        nested: 359,
        modules: 100,
        module_sections: 697,
        producers: 139,
        tools: 179,
    };
    assert_eq!(all, wanted);
}

fn items_of(listing: &Listing) -> impl Iterator<Item = &ItemTree> {
    listing.sections.iter().flat_map(|section| &section.items)
}

/// A walk counts the indices that the listed items define.
fn are_counted(bytes: &[u8], listing: &Listing) {
    let mut walk = Walk::new(bytes, 100).and_then(Walk::counted).expect("a component");
    while walk.next().is_some() {}
    let mut counts = IndexCounts::default();
    items_of(listing).for_each(|item| counts.define(item.defined_indices()));
    assert_eq!(*walk.counts(), counts);
}

/// Each item defines the indices from the count of those before it on.
fn are_defined(bytes: &[u8], listing: &Listing) {
    let definitions = Definitions::new(bytes, 100).expect("it is read");
    let definitions = definitions.instances();
    let mut next = [0u32; 13];
    for (item, of) in items_of(listing).zip(definitions.component().definitions()) {
        let Meaning::Item(view) = of.meaning() else { panic!("{item:?}") };
        assert!(is_same(view, item), "{item:?}");
        let Some((space, count)) = item.defined_indices() else { continue };
        let index = &mut next[space.number()];
        assert_eq!(definitions.component().get(space, *index), Ok(of), "{space:?} {index}");
        *index += count;
    }
    for space in Space::ALL {
        let index = next[space.number()];
        assert_eq!(definitions.component().count(space), Some(index.into()));
        assert!(definitions.component().get(space, index).is_err());
    }
}

/// From the end of each section and of each item on, what follows is read.
fn are_read_on(bytes: &[u8]) {
    let mut sections = Sections::new(bytes).expect("a component");
    while let Some(section) = sections.next() {
        let section = section.expect("it is framed");
        let place = sections.offset().expect("no error");
        assert_eq!(place, section.range().end);
        let range = |next: Option<Result<SectionReader<'_>, _>>| next.map(|of| of.unwrap().range());
        let mut rest = Sections::at(bytes, place).expect("it is within");
        assert_eq!(range(rest.next()), range(sections.clone().next()));
        let mut items = section.items();
        while let Some(item) = items.next() {
            item.expect("it is read");
            let (range, count) = items.left().expect("no error");
            let mut rest = Items::at(bytes, section.id(), range, count).expect("it is within");
            assert_eq!(rest.next(), items.clone().next());
        }
        assert_eq!(items.left(), Some((place..place, 0)));
    }
}

/// The sections of a listing and of the components in it, with the depth of each, and its place in
/// the outermost.
fn listed(bytes: &[u8], depth: usize, from: usize) -> Vec<(usize, usize, Vec<ItemTree>)> {
    let mut found = Vec::new();
    for ListedSection { place, items, .. } in list(bytes).expect("it is listed").sections {
        let inner = match items.as_slice() {
            [ItemTree::Component(inner)] => inner.clone(),
            _ => Vec::new(),
        };
        found.push((depth, from + place, items));
        if !inner.is_empty() {
            let at = bytes[place..].windows(inner.len()).position(|bytes| bytes == inner);
            found.extend(listed(&inner, depth + 1, from + place + at.expect("it is there")));
        }
    }
    found
}

/// Sections of components in others are those of listings of these.
fn are_nested(bytes: &[u8], all: &mut Found) {
    let mut walk = Walk::new(bytes, 8).expect("a component");
    let mut found: Vec<(usize, usize, Vec<ItemTree>)> = Vec::new();
    // the sections around the next step
    let mut open = vec![0];
    while let Some(step) = walk.next() {
        match step {
            Step::Section(section) => {
                *open.last_mut().expect("a component") = found.len();
                found.push((walk.depth(), section.range().start, Vec::new()));
            }
            Step::Item(item) | Step::Enter(item) => {
                found[*open.last().expect("a section")].2.push(item.view.to_tree());
                if let ItemView::Component(_) = item.view {
                    open.push(0);
                }
            }
            Step::Leave => _ = open.pop(),
            // some have an item that isn't read in one
            _ => return,
        }
    }
    assert!(found == listed(bytes, 0, 0));
    all.nested += found.iter().filter(|(depth, ..)| *depth > 0).count();
}

/// The ranges of a module's sections follow one another, from its header to its end. Its producers
/// and those of a component are written again.
fn are_in_modules(item: &ItemTree, all: &mut Found) {
    match item {
        ItemTree::Custom { name, data } if &**name == ProducersReader::SECTION => {
            is_written_again(data, all);
        }
        ItemTree::Module(module) => {
            let mut end = 8;
            for section in CoreSections::new(module).expect("a module") {
                let section = section.expect("a section");
                assert_eq!((section.range.start, module[end]), (end, section.id));
                assert!(module[section.range.clone()].ends_with(section.data));
                assert!(section.kind().is_some());
                end = section.range.end;
                all.module_sections += 1;
                if section.name == Some(ProducersReader::SECTION) {
                    is_written_again(section.data, all);
                }
            }
            assert_eq!(end, module.len());
            all.modules += 1;
        }
        _ => {}
    }
}

fn is_written_again(data: &[u8], all: &mut Found) {
    let mut section = ProducersSection::new();
    let tools: Vec<_> =
        ProducersReader::new(data).collect::<Result<_, _>>().expect("they are read");
    for field in tools.chunk_by(|one, other| one.field == other.field) {
        let mut values = ProducersField::new();
        field.iter().for_each(|tool| _ = values.value(tool.name, tool.version));
        section.field(field[0].field, &values);
    }
    assert!(encoded(&section).ends_with(data), "{tools:?}");
    all.producers += 1;
    all.tools += tools.len();
}
