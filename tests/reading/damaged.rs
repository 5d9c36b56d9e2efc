//! What is known of components in which something can't be read.

use crate::{component, nested, section};
use wenc::scope::{Definitions, Instances, ScopeFault};
use wenc::tree::Space;

/// Calls a function with what is known of a component, in which there is one error.
fn read(sections: &[&[u8]], check: impl FnOnce(&Instances<'_, '_>)) {
    let (bytes, mut errors) = (component(&sections.concat()), 0);
    let definitions = Definitions::past_faults(&bytes, 100, |_| errors += 1);
    assert_eq!(errors, 1, "{sections:x?}");
    check(&definitions.instances());
}

/// The type of a function, and a type of functions with a parameter.
const FUNC: &[u8] = b"\x40\0\x01\0";
const OTHER: &[u8] = b"\x40\x01\x01x\x79\x01\0";

fn types(count: u8, types: &[&[u8]]) -> Vec<u8> {
    section(7, &[&[count], &types.concat()[..]].concat())
}

fn is_unread(all: &Instances<'_, '_>, space: Space, index: u32, from: usize) {
    let found = all.component().resolve(space, index).map(|of| of.place());
    let is_unread = matches!(found, Err(ScopeFault::Unread { unread, .. }) if unread == from);
    assert!(is_unread, "{space} {index}: {found:x?}");
}

/// A section whose size is beyond the end, in a component, and at the end of the outermost: what
/// follows isn't known in either, since the size of the one in it may be what is wrong.
#[test]
fn sections_without_an_end() {
    let bad = b"\x0b\x7f\x01";
    let inner = nested(&[&types(1, &[FUNC]), &bad[..]].concat());
    let instance = section(5, b"\x01\0\0\0");
    let alias = section(6, b"\x01\x01\0\0\x01f");
    read(&[&inner, &instance, &alias, &section(11, b"\x01\0\x01g\x01\0\0")], |all| {
        let scope = all.component();
        is_unread(all, Space::Funcs, 0, 25);
        is_unread(all, Space::Funcs, 1, 25);
        assert!(Space::ALL.into_iter().all(|space| scope.count(space).is_none()));
        assert_eq!(scope.get(Space::Components, 0).map(|of| of.place()), Ok(10));
        let inner = scope.get(Space::Components, 0).unwrap().inner().unwrap();
        assert!(Space::ALL.into_iter().all(|space| inner.count(space).is_none()));
        assert_eq!(inner.get(Space::Types, 0).map(|of| of.place()), Ok(21));
        let unread = ScopeFault::Unread { place: 10, space: Space::Funcs, unread: 25 };
        assert_eq!(inner.export("f", Space::Funcs), Err(unread));
        let unread = ScopeFault::Unread { place: 0, space: Space::Funcs, unread: 25 };
        assert_eq!(scope.export("f", Space::Funcs), Err(unread));
    });
    let import = section(10, b"\x01\0\x01f\x01\0");
    let export = section(11, b"\x01\0\x01g\x01\0\0");
    read(&[&types(1, &[FUNC]), &inner, &import, &export], |all| {
        is_unread(all, Space::Funcs, 0, 32);
        is_unread(all, Space::Funcs, 1, 32);
    });
    read(&[&types(1, &[FUNC]), &import, &export, &inner], |all| {
        let of = all.component().resolve(Space::Funcs, 1).expect("it is known");
        assert_eq!((of.name(), of.index()), (Some("f"), Some(0)));
        assert!(of.ty().is_ok_and(|ty| ty.is_some_and(|ty| ty.place() == 11)));
    });
    read(&[&types(1, &[FUNC]), &import, b"\x07\x7f\x01"], |all| {
        assert!(Space::ALL.into_iter().all(|space| all.component().count(space).is_none()));
        assert!(all.component().resolve(Space::Funcs, 0).is_ok());
    });
}

/// A number of items that is too small leaves bytes behind the last one, and one that is too large
/// none for the others.
#[test]
fn numbers_of_items_that_are_wrong() {
    let import = section(10, b"\x01\0\x01f\x01\x01");
    for types_of in
        [[types(1, &[FUNC, OTHER]), types(1, &[FUNC])], [types(3, &[FUNC, OTHER]), vec![]]]
    {
        read(&[&types_of.concat(), &import], |all| {
            let import = all.component().get(Space::Funcs, 0).expect("it is read");
            let is_known = all.component().get(Space::Types, 1).is_ok();
            assert_eq!(import.ty().is_ok(), is_known);
            assert_eq!(all.component().count(Space::Types), None);
            // the number 1 may be that of the second one, or of what is behind it
            assert_eq!(is_known, types_of[1].is_empty());
        });
    }
    // the functions of a canonical section, of which there may be fewer
    for lifted in [0, 2] {
        let lift = section(8, &[1, 0, 0, lifted, 0, 0]);
        let export = section(11, b"\x01\0\x01f\x01\0\0");
        let canonical = section(8, b"\x03\x05");
        read(&[&types(1, &[FUNC]), &canonical, &lift, &export], |all| {
            assert!(all.component().get(Space::CoreFuncs, 0).is_ok());
            is_unread(all, Space::CoreFuncs, 1, 19);
            is_unread(all, Space::Funcs, 0, 19);
            assert_eq!(all.component().definitions().last().unwrap().index(), None);
        });
        read(&[&types(1, &[FUNC]), &section(8, b"\0\x05"), &lift, &export], |all| {
            is_unread(all, Space::CoreFuncs, 0, 18);
            is_unread(all, Space::Funcs, 0, 18);
        });
    }
}

/// A component without a header, or with a core module's.
#[test]
fn components_without_a_header() {
    for inner in [&b"\0asm\x01\0\0\0"[..], b"", b"\0asm"] {
        let inner = section(4, inner);
        let after = [section(5, b"\x01\0\0\0"), section(6, b"\x01\x01\0\0\x01f")].concat();
        read(&[&inner, &after, &types(1, &[FUNC])], |all| {
            is_unread(all, Space::Funcs, 0, 10);
            assert_eq!(all.component().count(Space::Components), Some(1));
            assert!(all.component().resolve(Space::Types, 0).is_ok());
        });
    }
}
