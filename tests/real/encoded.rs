//! Which bytes each value of an item has.

use crate::{corpus, features, random};
use std::ops::Range;
use wenc::tree::{Encoded, Node};
use wenc::view::ItemView;
use wenc::{CoreSections, Item, Step, Walk};

/// The function that an item passes its values to.
type Visit<'v> = &'v mut dyn FnMut(Range<usize>, Node<'_>);

/// Each byte of these is told once, in their order.
fn is_told(range: Range<usize>, each: impl FnOnce(Visit<'_>) -> bool) {
    let mut at = range.start;
    let is_whole = each(&mut |told, node| {
        assert_eq!(told.start, at);
        assert!(!told.is_empty() && !matches!(node, Node::Tuple(_)));
        at = told.end;
    });
    assert!(is_whole && at == range.end, "{range:?} {at}");
}

/// Each byte of each item of a core module is told. Returns the number of items.
fn are_told_in_module(module: &[u8]) -> usize {
    let sections = CoreSections::new(module).into_iter().flatten().flatten();
    let items = sections.flat_map(|section| section.items()).flatten();
    items.map(|item| is_told(item.range.clone(), |visit| item.each_encoded(module, visit))).count()
}

/// Each byte of each item is told. Returns the numbers of items, and of those of core modules.
fn are_told(bytes: &[u8]) -> (usize, usize) {
    let (mut items, mut of_modules) = (0, 0);
    for step in Walk::new(bytes, 100).expect("a component") {
        let (Step::Item(item) | Step::Enter(item)) = step else { continue };
        is_told(item.range.clone(), |visit| item.each_encoded(bytes, visit));
        if let ItemView::Module(module) = item.view {
            of_modules += are_told_in_module(module);
        }
        items += 1;
    }
    (items, of_modules)
}

#[test]
fn each_byte_has_a_value() {
    let components = corpus::components().into_iter().map(|(_, bytes)| bytes);
    let random = (1..=64).map(|seed| random::components(seed, 2, false).0);
    let told = components.chain([features::known()]).chain(random).map(|of| are_told(&of));
    let (items, of_modules) = told.fold((0, 0), |all, of| (all.0 + of.0, all.1 + of.1));
    assert!(items > 3000 && of_modules > 500, "{items} {of_modules}");
}

/// The ranges of an item's values, with their nodes.
fn told(item: &Item, bytes: &[u8]) -> (bool, Vec<(Range<usize>, String)>) {
    let mut told = Vec::new();
    let is_whole = item.each_encoded(bytes, |range, node| told.push((range, format!("{node:?}"))));
    (is_whole, told)
}

#[test]
fn other_bytes_are_seen() {
    let component = b"\0asm\x0d\0\x01\0\x07\x05\x01\x40\0\x01\0\x0a\x06\x01\0\x01f\x01\0";
    let items = Walk::new(component, 0).expect("a component").items();
    let item = items.map(|item| item.expect("it is read")).last().expect("an import");
    assert!(told(&item, component).0);
    let mut other = *component;
    other[20] = b'g';
    assert!(!told(&item, &other).0 && !told(&item, &component[..20]).0);
    other[20] = b'f';
    other[22] = 1;
    assert!(!told(&item, &other).0);
}

/// Values by their bytes: of a canonical function with options, a type and an alias.
#[test]
fn values_have_their_bytes() {
    let component = b"\0asm\x0d\0\x01\0\
        \x08\x0b\x01\x00\x00\x05\x02\x03\x07\x04\x81\x00\x09\
        \x06\x06\x01\x00\x11\x02\x01\x03\
        \x07\x04\x01\x3f\x7f\x00";
    let items = Walk::new(component, 0).expect("a component").items();
    let items: Vec<_> = items.map(|item| item.expect("it is read")).collect();
    let ranges = |item: &Item| {
        let (is_whole, told) = told(item, component);
        assert!(is_whole);
        told.into_iter().map(|(range, _)| range).collect::<Vec<_>>()
    };
    // the opcode, the core function, the number of options, each with its index, and the type
    let lift = [11..13, 13..14, 14..15, 15..16, 16..17, 17..18, 18..20, 20..21];
    assert_eq!(ranges(&items[0]), lift);
    // the sort, the target, the count and the index
    assert_eq!(ranges(&items[1]), [24..26, 26..27, 27..28, 28..29]);
    // a resource, its representation, and that it has no destructor
    assert_eq!(ranges(&items[2]), [32..33, 33..34, 34..35]);
}

/// The values that begin, with the names of their fields and their byte offsets, and how many end.
fn begun(each: impl FnOnce(&mut dyn FnMut(Encoded<'_>)) -> bool) -> (Vec<(String, usize)>, usize) {
    let (mut begun, mut ended) = (Vec::new(), 0);
    assert!(each(&mut |step| match step {
        Encoded::Begin { field, offset, .. } => begun.push((field.to_string(), offset)),
        Encoded::End => ended += 1,
        _ => {}
    }));
    (begun, ended)
}

/// The fields of an import and of a core module's export are told with their names.
#[test]
fn fields_have_names() {
    let component = b"\0asm\x0d\0\x01\0\x07\x05\x01\x40\0\x01\0\x0a\x06\x01\0\x01f\x01\0";
    let items = Walk::new(component, 0).expect("a component").items();
    let item = items.map(|item| item.expect("it is read")).last().expect("an import");
    let (fields, ended) = begun(|visit| item.each_encoded_part(component, visit));
    assert_eq!(ended, fields.len());
    assert!(["name", "ty"].iter().all(|name| fields.iter().any(|(field, _)| field == name)));
    assert!(fields.ends_with(&[("name".into(), 19), ("ty".into(), 21), ("".into(), 22)]));

    let module = b"\0asm\x01\0\0\0\x07\x05\x01\x01f\0\x05";
    let sections = CoreSections::new(module).expect("a core module");
    let section = sections.map(|section| section.expect("it is read")).next().expect("a section");
    let item = section.items().next().expect("an item").expect("it is read");
    let (fields, ended) = begun(|visit| item.each_encoded_part(module, visit));
    assert_eq!(ended, fields.len());
    let names = [("", 11), ("name", 11), ("kind", 13), ("index", 14)];
    assert_eq!(fields, names.map(|(name, offset)| (name.to_string(), offset)));
}
