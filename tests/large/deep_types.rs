//! Deeply nested types, made by hand: each call fits in the stack that the documentation states.

use std::hash::{DefaultHasher, Hash, Hasher};
use std::mem::forget;
use std::thread;
use wenc::tree::{Command, ComponentDecl, DefinedTree, InstanceDecl, ItemTree, TypeTree, build};
use wenc::{ComponentBuilder, ComponentSectionId, ComponentTypeSection, Encode, ItemSection};

/// The depth that fits, by the documentation.
const DEPTH: usize = 1_000;

/// The stack of a main thread.
const USUAL: usize = 8 << 20;

/// The part of it that everything but printing nodes takes, if the code is optimized.
const SMALL: usize = if cfg!(debug_assertions) { USUAL } else { 1 << 20 };

fn of_instances() -> ItemTree {
    let own = TypeTree::Defined(DefinedTree::Own(7));
    ItemTree::Type(
        (0..DEPTH).fold(own, |ty, _| TypeTree::Instance([InstanceDecl::Type(ty)].into())),
    )
}

fn of_components() -> ItemTree {
    let own = TypeTree::Defined(DefinedTree::Own(7));
    let around = |ty, _| TypeTree::Component([ComponentDecl::Decl(InstanceDecl::Type(ty))].into());
    ItemTree::Type((0..DEPTH).fold(own, around))
}

/// Does this with both in threads with this stack. A stack that is too small ends the tests.
fn with_both(stack: usize, work: fn(&mut ItemTree)) {
    for mut item in [of_instances(), of_components()] {
        let thread = thread::Builder::new().stack_size(stack);
        let done = thread.spawn(move || {
            work(&mut item);
            item
        });
        // it is dropped by a separate call
        forget(done.expect("there is a thread").join().expect("it is done"));
    }
}

fn ty(item: &ItemTree) -> &TypeTree {
    let ItemTree::Type(ty) = item else { panic!("{item:?}") };
    ty
}

#[test]
fn indices_are_visited() {
    with_both(SMALL, |item| {
        let mut found = Vec::new();
        item.indices_mut(|used| found.push(*used.index));
        assert_eq!(found, [7]);
    });
}

#[test]
fn values_are_compared_and_dropped() {
    with_both(SMALL, |item| {
        let copy = item.clone();
        assert!(*item == copy);
        let hash = |item: &ItemTree| {
            let mut hasher = DefaultHasher::new();
            item.hash(&mut hasher);
            hasher.finish()
        };
        assert_eq!(hash(item), hash(&copy));
        drop(copy);
    });
}

/// Each type begins with its kind, its only declaration and that it is a type.
fn expect(bytes: &[u8]) {
    let own = [0x69, 7];
    let (types, innermost) = bytes.split_at(bytes.len() - own.len());
    let types = &types[types.len() - 3 * DEPTH..];
    assert!(types.chunks(3).all(|ty| matches!(ty, [0x41 | 0x42, 1, 1])) && innermost == own);
}

#[test]
fn types_are_encoded() {
    with_both(SMALL, |item| {
        let mut bytes = Vec::new();
        ty(item).encode(&mut bytes);
        assert_eq!(bytes.len(), 3 * DEPTH + 2);
        expect(&bytes);
        let mut builder = ComponentBuilder::default();
        builder.item(None, item);
        expect(&builder.finish());
        let mut section = ItemSection::new(ComponentSectionId::Type);
        section.item(item).expect("it is added");
        let mut types = ComponentTypeSection::new();
        types.ty().tree(ty(item));
        for section in [&section as &dyn wenc::ComponentSection, &types] {
            let mut bytes = Vec::new();
            section.append_to_component(&mut bytes);
            expect(&bytes);
        }
        let built = build(&[Command::from(item.clone())]).expect("it is built");
        expect(&built.bytes);
    });
}

#[test]
fn values_are_printed() {
    with_both(SMALL, |item| assert!(format!("{item:?}").contains("Own(7)")));
}
