//! Reading without trees, by the feature `walk` alone. `tests/reading` has the rest.
#![cfg(feature = "walk")]

use wenc::tree::{Scope, Space, UsedIndex};
use wenc::view::{CoreItemView, ItemView, TypeView};
use wenc::{
    Cause, Component, ComponentNameSection, ComponentSectionId, ComponentTypeRef, CoreSections,
    DebugNames, OutOfRange, Part, Producer, ProducersReader, ReadError, Sections, Walk,
};

/// The type of a function, an import of a function of that type, and debug names of the component
/// and of the function.
const COMPONENT: &[u8] = b"\0asm\x0d\0\x01\0\x07\x05\x01\x40\0\x01\0\x0a\x06\x01\0\x01f\x01\0\
    \0\x1a\x0ecomponent-name\0\x02\x01c\x01\x05\x01\x01\0\x01g";

#[test]
fn items_are_borrowed() -> Result<(), ReadError> {
    let items: Result<Vec<_>, _> = Sections::new(COMPONENT)?.items().collect();
    let items = items?;
    let [func, imported, custom] = [0, 1, 2].map(|at| &items[at].view);
    let ranges: Vec<_> = items.iter().map(|item| item.range.clone()).collect();
    assert_eq!(ranges, [11..15, 18..23, 25..51]);
    let ItemView::Type(TypeView::Func { is_async: false, params, result: None }) = func else {
        panic!("{func:?}")
    };
    assert!(params.is_empty());
    let ItemView::Import { name, ty: ComponentTypeRef::Func(0) } = imported else {
        panic!("{imported:?}")
    };
    assert_eq!(name.name, "f");
    assert!(matches!(custom, ItemView::Custom { name: "component-name", .. }));
    Ok(())
}

#[test]
fn names_are_read_and_written() -> Result<(), ReadError> {
    let mut names = DebugNames::of(COMPONENT);
    assert_eq!((names.component(), names.get(Space::Funcs, 0)), (Some("c"), Some("g")));
    names.insert(Space::Types, 0, "t");
    let section = ComponentNameSection::from(&names);
    assert_eq!(
        *section.as_custom().data,
        *b"\0\x02\x01c\x01\x05\x01\x01\0\x01g\x01\x05\x03\x01\0\x01t"
    );
    Ok(())
}

#[test]
fn sections_are_copied() -> Result<(), ReadError> {
    let mut component = Component::new();
    for section in Sections::new(COMPONENT)? {
        let section = section?;
        if section.id() != ComponentSectionId::CoreCustom.into() {
            component.section(&section);
        }
    }
    assert_eq!(component.finish(), COMPONENT[..23]);
    Ok(())
}

#[test]
fn indices_are_found() -> Result<(), ReadError> {
    let sections = Sections::new(COMPONENT)?;
    let mut walk = Walk::new(COMPONENT, 0)?.counted()?;
    assert_eq!(walk.by_ref().count(), 6);
    assert_eq!([Space::Types, Space::Funcs].map(|space| walk.counts().of(space)), [Some(1); 2]);
    let (space, scope) = (Space::Types, Scope::Component(0));
    let mut used = Vec::new();
    for item in sections.items() {
        item?.view.node().each_index(|index| used.push(index));
    }
    assert_eq!(used, [UsedIndex { space, scope, index: 0, count: None }]);
    assert!(Walk::new(COMPONENT, 100)?.out_of_range().next().is_none());

    let mut damaged = COMPONENT.to_vec();
    damaged[22] = 7;
    let found: Result<Vec<_>, _> = Walk::new(&damaged, 100)?.out_of_range().collect();
    assert_eq!(found?, [OutOfRange { place: 18, space, scope, index: 7, count: 1 }]);
    Ok(())
}

#[test]
fn faults_say_what_is_missing() -> Result<(), ReadError> {
    let mut damaged = COMPONENT.to_vec();
    damaged[17] = 2;
    let error = Sections::new(&damaged)?.items().find_map(Result::err).expect("one is missing");
    assert_eq!((error.section, error.part, error.offset), (15, Part::Item(1), 23));
    assert_eq!(error.cause, Cause::Few { place: 23, needed: 1, len: 0 });
    Ok(())
}

#[test]
fn core_modules_are_read() {
    // a start function, and producers
    let module =
        b"\0asm\x01\0\0\0\x08\x01\x05\0\x1f\x09producers\x01\x08language\x01\x04Rust\x042024";
    let sections: Result<Vec<_>, _> = CoreSections::new(module).expect("a module").collect();
    let sections = sections.expect("they are read");
    let [start, producers] = &sections[..] else { panic!("{sections:?}") };
    let item = start.items().next().expect("an item").expect("it is read");
    assert_eq!((item.range, item.view), (10..11, CoreItemView::Start { function: 5 }));
    assert_eq!(producers.name, Some(ProducersReader::SECTION));
    let rust = Producer { field: "language", name: "Rust", version: "2024" };
    assert!(ProducersReader::new(producers.data).eq([Ok(rust)]));
}
