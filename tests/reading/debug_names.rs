//! Debug names.

use crate::{bytes, component};
use wenc::tree::{ItemTree, Space};
use wenc::view::ItemView;
use wenc::{Component, ComponentNameSection, ComponentSection, DebugNames, Format};

/// A custom section with this name and data.
fn custom(name: &str, data: &[u8]) -> ItemTree {
    ItemTree::Custom { name: String::from(name), data: data.to_vec() }
}

/// The section of names with this data.
fn section(data: &[u8]) -> ItemTree {
    custom("component-name", data)
}

/// A subsection with the name of the item 0 of each kind, in the order of their spaces.
const OF_ALL_SORTS: [(&[u8], &str); 13] = [
    (b"\x01\x06\x00\x11\x01\x00\x01", "a"),
    (b"\x01\x06\x00\x00\x01\x00\x01", "b"),
    (b"\x01\x06\x00\x10\x01\x00\x01", "c"),
    (b"\x01\x06\x00\x02\x01\x00\x01", "d"),
    (b"\x01\x06\x00\x01\x01\x00\x01", "e"),
    (b"\x01\x06\x00\x12\x01\x00\x01", "f"),
    (b"\x01\x06\x00\x04\x01\x00\x01", "g"),
    (b"\x01\x06\x00\x03\x01\x00\x01", "h"),
    (b"\x01\x05\x01\x01\x00\x01", "i"),
    (b"\x01\x05\x05\x01\x00\x01", "j"),
    (b"\x01\x05\x02\x01\x00\x01", "k"),
    (b"\x01\x05\x04\x01\x00\x01", "l"),
    (b"\x01\x05\x03\x01\x00\x01", "m"),
];

#[test]
fn each_sort_is_read_and_written() {
    let mut data = b"\x00\x02\x01z".to_vec();
    for (subsection, name) in OF_ALL_SORTS {
        data.extend([subsection, name.as_bytes()].concat());
    }
    let mut names = DebugNames::new();
    assert_eq!(names.read(&section(&data)), Ok(()));
    assert_eq!(names.component(), Some("z"));
    let mut borrowed = DebugNames::new();
    let item = ItemView::Custom { name: DebugNames::SECTION, data: &data };
    assert_eq!((borrowed.read(&item), &borrowed), (Ok(()), &names));
    let expected = Space::ALL.into_iter().zip(OF_ALL_SORTS);
    let expected: Vec<_> = expected.map(|(space, (_, name))| (space, 0, name)).collect();
    assert_eq!(names.iter().collect::<Vec<_>>(), expected);

    let written = ComponentNameSection::from(&names);
    let mut component = Component::new();
    component.section(&written);
    let bytes = component.finish();
    assert!(bytes.ends_with(&[b"\x0ecomponent-name", &data[..]].concat()));
    assert_eq!(written.id(), 0);
    assert_eq!(DebugNames::of(&bytes), names);
    assert!(ComponentNameSection::from(&DebugNames::new()).is_empty());
}

#[test]
fn the_first_name_is_kept() {
    let twice =
        b"\x00\x02\x01a\x01\x08\x01\x02\x00\x01b\x00\x01c\x00\x02\x01d\x01\x05\x01\x01\x00\x01e";
    let mut names = DebugNames::new();
    assert_eq!(names.read(&section(twice)), Ok(()));
    assert_eq!((names.component(), names.get(Space::Funcs, 0)), (Some("a"), Some("b")));
    assert_eq!(names.iter().count(), 1);
    names.insert(Space::Funcs, 0, "f");
    names.insert(Space::Funcs, u32::MAX, "g");
    names.set_component("h");
    assert_eq!(names.component(), Some("h"));
    let items: Vec<_> = names.iter().collect();
    assert_eq!(items, [(Space::Funcs, 0, "f"), (Space::Funcs, u32::MAX, "g")]);
}

#[test]
fn what_is_not_read_is_told() {
    // a name of the component, a subsection of another id, and then none
    let front = b"\x00\x02\x01a\x09\x01\xff";
    let bad = [
        // a name that is longer than its subsection, shorter, or not UTF-8
        ("00", "the bytes end at 0x8"),
        ("0001", "the bytes end at 0x9"),
        ("000101", "the bytes end at 0xa"),
        ("000201", "needs 2 bytes or more from 0x9 on, where 1 is left"),
        ("00020261", "needs 2 bytes or more from 0xa on, where 1 is left"),
        ("0003016161", "0x61 at 0xb, where the end is expected"),
        ("000201ff", "0xff at 0xa isn't UTF-8"),
        // an unknown kind, or a missing one
        ("0100", "the bytes end at 0x9"),
        ("01020600", "0x06 at 0x9, where 0x00 to 0x05 is expected"),
        ("010100", "the bytes end at 0xa"),
        ("0103000500", "0x05 at 0xa, where 0x00 to 0x04 or 0x10 to 0x12 is expected"),
        ("0103001300", "0x13 at 0xa, where 0x00 to 0x04 or 0x10 to 0x12 is expected"),
        // more or fewer names than the count
        ("01020101", "the bytes end at 0xb"),
        ("01050102000161", "the bytes end at 0xe"),
        ("01030100ff", "0xff at 0xb, where the end is expected"),
        ("0109010100808080808000", "the number at 0xc has more than 32 bits"),
        // another subsection behind
        ("000101090100", "the bytes end at 0xa"),
        ("01020600090100", "0x06 at 0x9, where 0x00 to 0x05 is expected"),
        // a malformed size, or one that exceeds the bytes
        ("0180", "the bytes end at 0x9"),
        ("0902", "needs 2 bytes or more from 0x9 on, where 0 are left"),
        ("0906ffffffff", "needs 6 bytes or more from 0x9 on, where 4 are left"),
    ];
    for (bad, cause) in bad {
        let mut names = DebugNames::new();
        let told = names.read(&section(&[&front[..], &bytes(bad)].concat())).unwrap_err();
        assert_eq!((told.format, told.offset), (Format::Names, 7), "{bad}");
        assert_eq!(told.to_string(), format!("bad debug names at 0x7: {cause}"));
        assert_eq!(names.component(), Some("a"));
    }
    let mut names = DebugNames::new();
    for other in [custom("name", b"\x00"), ItemTree::Component(b"\x00".to_vec())] {
        assert_eq!(names.read(&other), Ok(()));
    }
    assert_eq!(names, DebugNames::default());
}

/// Names before the first that can't be read, in two sections of names.
#[test]
fn a_component_has_the_names_that_are_read() {
    let bytes = b"\0asm\x0d\0\x01\0\
        \x00\x16\x0ecomponent-name\x01\x05\x01\x01\x00\x01a\
        \x00\x15\x0ecomponent-name\x00\x02\x01b\x00\x00\
        \x0a\x01";
    let names = DebugNames::of(bytes);
    assert_eq!((names.get(Space::Funcs, 0), names.component()), (Some("a"), Some("b")));
    assert_eq!(DebugNames::of(&bytes[..bytes.len() - 2]), names);
    assert_eq!(DebugNames::of(&bytes[1..]), DebugNames::new());
}

/// Names are found after sections whose items can't be read, and up to one without a size within
/// bounds.
#[test]
fn names_behind_what_is_not_read_are_found() {
    let framed: [&[u8]; 4] = [
        b"\x06\x00",             // without a count
        b"\x0a\x03\xff\xff\xff", // with a part of one
        b"\x0c\x01\x00",         // with an id that is none
        b"\x00\x01\x07",         // a custom one without a name
    ];
    let names = b"\x00\x16\x0ecomponent-name\x01\x05\x01\x01\x00\x01a";
    let other = b"\x00\x16\x0ecomponent-name\x01\x05\x01\x01\x01\x01b";
    for framed in framed {
        for cut in [&b"\x06"[..], b"\x06\x01"] {
            let bytes = component(&[framed, names, cut, other].concat());
            let found = DebugNames::of(&bytes);
            assert_eq!(found.iter().collect::<Vec<_>>(), [(Space::Funcs, 0, "a")], "{framed:x?}");
            let bytes = component(&[framed, names, framed, other].concat());
            let found = DebugNames::of(&bytes);
            let both = [(Space::Funcs, 0, "a"), (Space::Funcs, 1, "b")];
            assert_eq!(found.iter().collect::<Vec<_>>(), both, "{framed:x?}");
        }
    }
}
