//! Large and deep components are read in linear time and memory. The requested bytes are counted,
//! and in quadratic time no test would end within the time limit of the gate.

use crate::refuse::requested;
use std::collections::BTreeMap;
use wenc::scope::{Definitions, ScopeFault};
use wenc::tree::{ItemTree, Scope, Space};
use wenc::{
    Component, DebugNames, NestedComponentSection, Part, RawSection, ReadError, Step, Walk,
};

/// A number of at most 28 bits, padded to four bytes.
fn number(number: usize) -> [u8; 4] {
    assert!(number < 1 << 28);
    let byte = |at: usize| (number >> (7 * at)) as u8 & 0x7f | if at < 3 { 0x80 } else { 0 };
    [0, 1, 2, 3].map(byte)
}

/// Components nested this deep, the innermost with these sections.
fn deep(depth: usize, sections: &[u8]) -> Vec<u8> {
    let inner = Component::HEADER.len() + sections.len();
    let front = |out| {
        let size = number(inner + out * (Component::HEADER.len() + 5));
        Component::HEADER.into_iter().chain([0x04]).chain(size)
    };
    let fronts = (0..depth).rev().flat_map(front);
    fronts.chain(Component::HEADER).chain(sections.iter().copied()).collect()
}

/// An outer alias of a type, this many components further out.
fn alias(out: u8, index: u8) -> [u8; 7] {
    [0x06, 0x05, 0x01, 0x03, 0x02, out, index]
}

#[test]
fn millions_of_components_in_one_another_are_walked() {
    let component = deep(2_000_000, &alias(1, 0));
    let walk = |limit| Walk::new(&component, limit).expect("it is a component");
    let count = || {
        let (mut sections, mut deepest, mut walk) = (0, 0, walk(usize::MAX));
        while let Some(step) = walk.next() {
            sections += usize::from(matches!(step, Step::Section(_)));
            deepest = deepest.max(walk.depth());
        }
        (sections, deepest)
    };
    let (counted, requested) = requested(count);
    assert_eq!(counted, (2_000_001, 2_000_000));
    // 16 bytes for each depth, in lists that double
    assert!(requested <= 4 * 2_000_000 * 16, "{requested}");
    let error = walk(1_999_999).items().last().expect("an error").expect_err("it is too deep");
    assert_eq!((error.part, error.offset), (Part::Depth, component.len() - 7 - 8));
}

#[test]
fn outer_indices_are_visited_up_to_a_hundred_deep() {
    let visit = |depth, out, limit| {
        let (component, mut seen) = (deep(depth, &alias(out, 5)), 0);
        let mut item = ItemTree::Component(component.clone());
        let (visited, requested) = requested(|| {
            item.outer_indices_mut(limit, |used| {
                assert_eq!((used.space, used.scope), (Space::Types, Scope::Component(0)));
                seen += 1;
                *used.index = 6;
            })
        });
        // each of at most a hundred components is copied, whatever is nested in them
        assert!(requested <= 300_000, "{depth}: {requested}");
        assert!(visited.is_ok() || item == ItemTree::Component(component));
        (visited, seen, item)
    };
    let is_too_deep =
        |visited: Result<(), ReadError>| visited.is_err_and(|error| error.part == Part::Depth);
    for limit in [100, usize::MAX] {
        let (visited, seen, item) = visit(100, 101, limit);
        assert_eq!((visited, seen), (Ok(()), 1));
        // the index is another, and the sizes are the shortest
        let mut expected = Component::new();
        expected.section(&RawSection { id: 6, data: &alias(101, 6)[2..] });
        for _ in 0..100 {
            let mut outer = Component::new();
            outer.section(&NestedComponentSection(&expected));
            expected = outer;
        }
        assert!(item == ItemTree::Component(expected.finish()));
        for depth in [101, 40_000] {
            let (visited, seen, _) = visit(depth, 101, limit);
            assert!(is_too_deep(visited) && seen == 0);
        }
    }
    assert!(is_too_deep(visit(100, 101, 99).0));
}

/// A component with this many imports of functions, with empty names.
fn imports(count: usize) -> Vec<u8> {
    let imports = b"\0\0\x01\0".repeat(count);
    let front = [&[0x0a][..], &number(4 + imports.len()), &number(count)].concat();
    [&Component::HEADER[..], &front, &imports].concat()
}

/// Returns the definitions of a component, which take no more memory than the documentation states.
fn defined(component: &[u8]) -> Definitions<'_> {
    let (read, requested) = requested(|| Definitions::new(component, usize::MAX));
    // of lists that double all requests are counted
    assert!(requested <= 44 * component.len() + (1 << 20), "{requested}");
    read.expect("it is read")
}

#[test]
fn each_of_many_indices_has_its_definition() {
    let component = imports(500_000);
    let definitions = defined(&component);
    let definitions = definitions.instances();
    let scope = definitions.component();
    let ((), requested) = requested(|| {
        for _ in 0..10 {
            for (index, place) in (0..500_000).zip((17..).step_by(4)) {
                let found = scope.resolve(Space::Funcs, index).expect("it is there");
                assert_eq!((found.place(), found.index()), (place, Some(index)));
            }
        }
    });
    assert_eq!(requested, 0);
    assert!(scope.get(Space::Funcs, 500_000).is_err() && scope.get(Space::Types, 0).is_err());
}

/// A million exports, each of the one before.
#[test]
fn exports_of_exports_are_followed() {
    let exports: Vec<u8> =
        (0..1_000_000).flat_map(|of| [&[0, 0, 1][..], &number(of), &[0]].concat()).collect();
    let front = [&[0x0b][..], &number(4 + exports.len()), &number(1_000_000)].concat();
    let component = [&imports(1), &front[..], &exports].concat();
    let definitions = defined(&component);
    let definitions = definitions.instances();
    let scope = definitions.component();
    for index in 0..=1_000_000 {
        assert_eq!(scope.resolve(Space::Funcs, index).map(|found| found.place()), Ok(17));
    }
    let last = definitions.component().definitions().last().expect("an export");
    assert_eq!(last.index(), Some(1_000_000));
}

/// Sections whose items can't be read, each before an export of a function.
#[test]
fn many_sections_that_are_not_read() {
    const COUNT: usize = 100_000;
    let sections = b"\x08\x02\x01\xff\x0b\x07\x01\0\x01f\x01\0\0".repeat(COUNT);
    // a core function that is the last one: an argument of an instance
    let last = u32::try_from(COUNT - 1).expect("they are few");
    let list = [&b"\x02\x0a\x01\x01\x01\x01f\0"[..], &number(last as usize)].concat();
    let component = [&Component::HEADER[..], &sections, &list].concat();
    let mut faults = 0;
    let (definitions, requested) =
        requested(|| Definitions::past_faults(&component, 0, |_| faults += 1));
    let definitions = definitions.instances();
    assert!(requested <= 40 * component.len() + (1 << 20), "{requested}");
    let scope = definitions.component();
    assert_eq!((faults, scope.count(Space::CoreFuncs)), (COUNT, Some(COUNT as u64)));
    let exports = (0..COUNT as u32).map(|index| scope.get(Space::Funcs, index).expect("an export"));
    for (index, export) in (0..).zip(exports) {
        assert_eq!(export.index(), Some(index));
        // the first would be an export of itself
        assert!(matches!(export.resolve(), Err(ScopeFault::OutOfRange { place: 15, .. })));
    }
}

/// An instance with as many exports as aliases of these, the last export first.
#[test]
fn many_exports_of_one_instance_are_found() {
    const COUNT: usize = 100_000;
    let name = |at: usize| [&[6][..], format!("{at:06}").as_bytes()].concat();
    let ty: Vec<u8> =
        (0..COUNT).flat_map(|at| [b"\x04\0", &name(at)[..], b"\x03\x01"].concat()).collect();
    let aliases: Vec<u8> =
        (0..COUNT).rev().flat_map(|at| [b"\x03\0\0", &name(at)[..]].concat()).collect();
    let section = |id, count: usize, content: &[u8]| {
        [&[id][..], &number(4 + content.len()), &number(count), content].concat()
    };
    let types = section(7, 1, &[&[0x42][..], &number(COUNT), &ty].concat());
    let import = section(10, 1, b"\0\0\x05\0");
    let sections = [types, import, section(6, COUNT, &aliases)].concat();
    let component = [&Component::HEADER[..], &sections].concat();
    let definitions = defined(&component);
    let definitions = definitions.instances();
    for (index, at) in (1..).zip((0..COUNT).rev()) {
        let found = definitions.component().resolve(Space::Types, index).expect("it is there");
        assert_eq!(found.place(), 22 + 11 * at);
    }
}

/// Components in one another, each but the first with an alias of a type of the outermost.
#[test]
fn outer_aliases_are_followed_in_deep_components() {
    const DEPTH: usize = 100_000;
    let sections = [0x06, 0x08, 0x01, 0x03, 0x02];
    let sections = [&sections[..], &number(DEPTH), &[0]].concat();
    let component = deep(DEPTH, &sections);
    let ty = [0x07, 0x02, 0x01, 0x79];
    let component = [&component[..8], &ty, &component[8..]].concat();
    let definitions = defined(&component);
    let definitions = definitions.instances();
    let mut scope = definitions.component();
    for _ in 0..DEPTH {
        scope = scope.get(Space::Components, 0).expect("it is there").inner().expect("a scope");
    }
    assert_eq!(scope.resolve(Space::Types, 0).map(|found| found.place()), Ok(11));
    assert!(Definitions::new(&component, DEPTH).is_ok());
    let fault = Definitions::new(&component, DEPTH - 1).err();
    assert!(matches!(fault, Some(error) if error.part == Part::Depth), "{fault:?}");
}

/// A subsection with these names, of functions.
fn subsection(names: &[(u32, &str)]) -> Vec<u8> {
    let name = |(index, name): &(u32, &str)| {
        [&number(*index as usize)[..], &[name.len() as u8], name.as_bytes()].concat()
    };
    let names_of: Vec<u8> = names.iter().flat_map(name).collect();
    let content = [&[0x01][..], &number(names.len()), &names_of].concat();
    [&[0x01][..], &number(content.len()), &content].concat()
}

/// The names that are read, in one subsection and in one for each name, are those of a map.
fn are_read(indices: impl Iterator<Item = u32>) {
    let names: Vec<(u32, std::string::String)> =
        indices.zip(0..).map(|(index, at): (u32, u32)| (index, format!("{at}"))).collect();
    let mut expected = BTreeMap::new();
    names.iter().for_each(|(index, name)| _ = expected.entry(*index).or_insert(name.as_str()));
    let names: Vec<(u32, &str)> = names.iter().map(|(index, name)| (*index, &name[..])).collect();
    let each: Vec<u8> = names.iter().flat_map(|name| subsection(&[*name])).collect();
    let mut inserted = DebugNames::new();
    names.iter().rev().for_each(|(index, name)| inserted.insert(Space::Funcs, *index, *name));
    for data in [subsection(&names), each] {
        let name = String::from(DebugNames::SECTION);
        let (mut read, item) = (DebugNames::new(), ItemTree::Custom { name, data });
        let (result, requested) = requested(|| read.read(&item));
        assert_eq!(result, Ok(()));
        assert!(requested <= 100 * names.len() + 300, "{requested}");
        let found = read.iter().map(|(space, index, name)| {
            assert_eq!((space, read.get(space, index)), (Space::Funcs, Some(name)));
            (index, name)
        });
        assert!(found.eq(expected.iter().map(|(index, name)| (*index, *name))));
        let next = expected.last_key_value().map_or(0, |(index, _)| index + 1);
        assert_eq!(read.get(Space::Funcs, next), None);
        assert!(read == inserted);
        // a name less
        let first = read.iter().next().map(|(_, index, _)| index);
        first.into_iter().for_each(|index| inserted.insert(Space::Funcs, index, "another"));
        assert_eq!(read == inserted, first.is_none());
        first.into_iter().for_each(|index| inserted.insert(Space::Funcs, index, expected[&index]));
    }
}

#[test]
fn names_in_any_order_are_read() {
    for count in [0, 1, 511, 512, 513, 1025, 5003] {
        are_read(0..count);
        are_read((0..count).rev());
        are_read((0..count).map(|at| at * 1_999 % 5_003));
        // each twice, some between two pages
        are_read((0..count).chain((0..count).rev()).map(|at| at / 2 * 3));
    }
    are_read((0..1_000_000).rev());
    are_read((0..50_000).map(|at| at * 1_999 % 50_021));
}
