//! What the examples make, by upstream's validator and by its decoder of worlds.

#[path = "../../examples/componentize.rs"]
mod componentize;
#[path = "../../examples/compose.rs"]
mod compose;
#[path = "../../examples/first.rs"]
#[allow(dead_code)]
mod first;
#[path = "../../examples/merge.rs"]
mod merge;
#[path = "../../examples/rename.rs"]
mod rename;
#[path = "../../examples/strip.rs"]
mod strip;
#[path = "../../examples/world.rs"]
mod world;

use crate::corpus;
use crate::toolchain::linker;
use componentize::{Signature, componentize};
use wenc::tree::{IndexCounts, ItemTree, NameTree};
use wenc::{ComponentTypeRef, Listing, list};
use wenc_calls::by_items::sections;

fn componentized(module: &[u8], signatures: &[&str]) -> Vec<u8> {
    let signatures = signatures.iter().map(|text| Signature::parse(text));
    componentize(module, &signatures.collect::<Result<Vec<_>, _>>().expect("signatures"))
}

/// The items of a component but for custom sections.
fn items(component: &[u8]) -> Vec<ItemTree> {
    let items = list(component).expect("it is listed").sections.into_iter().flat_map(|of| of.items);
    items.filter(|item| !matches!(item, ItemTree::Custom { .. })).collect()
}

#[test]
fn the_first_component_is_valid() {
    let Some(linker) = linker("first") else { return };
    assert_eq!(linker.refuses(&first::passed_on()), None);
}

#[test]
fn a_componentized_module_is_valid() {
    let signatures =
        ["run()", "num() -> char", "text(a: s32, b: bool) -> u8", "post(on-what: u16)"];
    let component = componentized(&corpus::read("features.wasm"), &signatures);
    let Some(linker) = linker("componentize") else { return };
    assert_eq!(linker.refuses(&component), None);
    let another = componentized(&corpus::read("features.wasm"), &["num() -> u64"]);
    let told = linker.refuses(&another).expect("it answers 32 bits");
    assert!(told.contains("lowered result types `[I64]`"), "{told}");
}

#[test]
fn an_encoded_world_is_linked() {
    let Some(linker) = linker("world") else { return };
    let mut object = corpus::read("o/01-flat.o");
    let expected = linker.link_text(&object, "wit/01-flat.wit").expect("it is linked");
    let text = corpus::text("wit/01-flat.wit");
    let text = &text[text.find("package").expect("a package")..];
    let (name, encoded) = world::encode(text).expect("a world");
    world::embed(&mut object, name, &encoded);
    let linked = linker.link(&object).expect("it is linked");
    // the core module has what made its world among its producers
    let told = |component: &[u8]| {
        let mut items = items(component);
        items.retain(|item| !matches!(item, ItemTree::Module(_)));
        items
    };
    assert!(told(&linked) == told(&expected), "another component");

    let text = "package example:greeter@1.0.0; world greeter { import log: func(line: string); \
        export greet: func(names: list<tuple<string, char>>) -> result<option<f32>, u64>; }";
    let (_, encoded) = world::encode(text).expect("a world");
    assert_eq!(linker.refuses(&encoded), None);
}

/// It exports `log`, which takes a number.
const LOG: &[u8] =
    b"\0asm\x01\0\0\0\x01\x05\x01\x60\x01\x7f\0\x03\x02\x01\0\x07\x07\x01\x03log\0\0\
    \x0a\x04\x01\x02\0\x0b";

#[test]
fn a_composed_component_is_valid() {
    let consumer = corpus::read("wasm/01-flat.wasm");
    let provider = componentized(LOG, &["log(x: u32)"]);
    let composed = compose::compose(&provider, &consumer).expect("it is composed");
    let Some(linker) = linker("compose") else { return };
    assert_eq!(linker.refuses(&composed), None);
    let another = componentized(LOG, &["log(x: s32)"]);
    let composed = compose::compose(&another, &consumer).expect("it is composed");
    let told = linker.refuses(&composed).expect("it takes another number");
    assert!(told.contains("expected primitive `u32` found primitive `s32`"), "{told}");
}

/// The names and the types of imports, and the number of exports.
fn world(listing: &Listing) -> (Vec<(&NameTree, ComponentTypeRef)>, usize) {
    let items = || listing.sections.iter().flat_map(|section| &section.items);
    let import = |item| match item {
        &ItemTree::Import { ref name, ty } => Some((name, ty)),
        _ => None,
    };
    let is_export = |item: &&ItemTree| matches!(item, ItemTree::Export { .. });
    (items().filter_map(import).collect(), items().filter(is_export).count())
}

/// How many imports both have.
fn shared(one: &Listing, other: &Listing) -> usize {
    let (one, other) = (world(one).0, world(other).0);
    let is_shared = |import: &&(&NameTree, ComponentTypeRef)| {
        other.iter().any(|(name, ty)| *name == import.0 && ty.kind() == import.1.kind())
    };
    one.iter().filter(is_shared).count()
}

/// Each component of the corpus with the one after it, and with all that import something of the
/// same name. Of those few ask for the same type too.
#[test]
fn merged_components_are_valid() {
    let linker = linker("merge");
    let components = corpus::components().into_iter();
    let components = components.filter_map(|(name, bytes)| Some((name, list(&bytes).ok()?, bytes)));
    let components: Vec<_> = components.collect();
    let (mut merged, mut imported_once, mut colliding, mut agreeing) = (0, 0, 0, Vec::new());
    for (at, (name, one, first)) in components.iter().enumerate() {
        for (other_at, (of, other, second)) in components.iter().enumerate().skip(at + 1) {
            let shared = shared(one, other);
            if shared == 0 && other_at > at + 1 {
                continue;
            }
            let Ok(made) = merge::merge(first, second) else {
                colliding += 1;
                continue;
            };
            let told = list(&made).expect("it is listed");
            let [told, one, other] = [&told, one, other].map(world);
            assert_eq!(told.1, one.1 + other.1);
            assert_eq!(told.0.len(), one.0.len() + other.0.len() - shared, "{name} and {of}");
            merged += 1;
            imported_once += shared;
            let Some(told) = linker.as_ref().map(|linker| linker.refuses(&made)) else { continue };
            match told {
                None if shared > 0 => agreeing.push([name.as_str(), of]),
                told => assert!(told.is_none() || shared > 0, "{name} and {of}: {told:?}"),
            }
        }
    }
    assert_eq!((merged, imported_once, colliding), (48, 13, 5));
    if linker.is_some() {
        assert_eq!(agreeing, [["01-flat", "adapted"], ["15-includes", "35-start"]]);
    }
}

/// A recursion group and the type of a module, which is imported; a type, and a nested component
/// with an outer alias of it, which it imports a function of.
fn with_groups_and_nested(import: u8, ty: u8) -> Vec<u8> {
    let nested = b"\0asm\x0d\0\x01\0\x06\x05\x01\x03\x02\x01\0\x0a\x06\x01\0\x01f\x01\0";
    [
        &b"\0asm\x0d\0\x01\0\x03\x0b\x02\x4e\x02\x60\0\0\x60\0\0\x50\0"[..],
        &[0x0a, 0x07, 1, 0, 1, import, 0, 0x11, 2],
        &[0x07, 5, 1, ty, 0, 1, 0, 0x04, 23],
        nested,
    ]
    .concat()
}

#[test]
fn merged_groups_and_nested_components_are_valid() {
    let one = with_groups_and_nested(b'm', 0x40);
    let made = merge::merge(&one, &with_groups_and_nested(b'n', 0x43)).expect("it is merged");
    let listing = list(&made).expect("it is listed");
    let imports: Vec<_> =
        world(&listing).0.into_iter().map(|(name, ty)| (&*name.name, ty)).collect();
    let module = ComponentTypeRef::Module;
    assert_eq!(imports, [("m", module(2)), ("n", module(5))]);
    let Some(linker) = linker("merged groups") else { return };
    assert_eq!(linker.refuses(&made), None);
}

#[test]
fn stripped_components_have_all_else() {
    let linker = linker("strip");
    let mut not_listed = 0;
    for (name, bytes) in corpus::components() {
        let stripped = strip::strip(&bytes).expect("it is stripped");
        assert!(stripped.len() < bytes.len(), "{name}");
        if let Some(linker) = &linker {
            assert_eq!(linker.refuses(&stripped), None, "{name}");
        }
        let Ok(listing) = list(&bytes) else {
            not_listed += 1;
            continue;
        };
        let has_nested = items(&bytes).iter().any(|item| matches!(item, ItemTree::Component(_)));
        if has_nested {
            let counts = |listing: &Listing| {
                let mut counts = IndexCounts::default();
                let items = listing.sections.iter().flat_map(|of| &of.items);
                items.for_each(|item| counts.define(item.defined_indices()));
                counts
            };
            let stripped = list(&stripped).expect("it is listed");
            assert_eq!(counts(&stripped), counts(&listing), "{name}");
        } else {
            assert!(items(&stripped) == items(&bytes), "{name}");
        }
    }
    // Those that hold functions which moved between versions.
    assert_eq!(not_listed, 6);
}

/// The name of an import, and another one for it, with `-x` behind the word that ends it or stands
/// before its version.
fn names(item: &ItemTree) -> Option<(String, String)> {
    let ItemTree::Import { name, .. } = item else { return None };
    let name = name.name.as_str();
    let (word, version) = name.split_at(name.find('@').unwrap_or(name.len()));
    let other = format!("{word}-x{version}");
    Some((name.to_owned(), other))
}

/// How many sections differ.
fn differing(one: &[u8], other: &[u8]) -> usize {
    let [one, other] =
        [one, other].map(|bytes| sections(bytes).map(|of| of.bytes().to_vec()).collect::<Vec<_>>());
    assert_eq!(one.len(), other.len());
    one.iter().zip(other).filter(|(one, other)| **one != *other).count()
}

/// The last import is renamed: in the name of a function the name of a resource may stand, which is
/// imported before.
#[test]
fn components_with_a_renamed_import_have_all_else() {
    let linker = linker("rename");
    let mut renamed = 0;
    for (name, bytes) in corpus::components() {
        let Ok(listing) = list(&bytes) else { continue };
        let Some((old, new)) = listing
            .sections
            .into_iter()
            .flat_map(|of| of.items)
            .filter_map(|item| names(&item))
            .next_back()
        else {
            continue;
        };
        let other = rename::rename(&bytes, &old, &new).expect("it is renamed");
        assert_eq!((other.len(), differing(&bytes, &other)), (bytes.len() + 2, 1), "{name}");
        if let Some(linker) = &linker {
            assert_eq!(linker.refuses(&other), None, "{name}");
        }
        assert!(rename::rename(&other, &new, &old).expect("it is renamed") == bytes, "{name}");
        renamed += 1;
    }
    assert_eq!(renamed, 30);
}
