//! Sections that aren't in the table: of debug names, of producers, raw ones; and components in
//! components.

use crate::called::called;
use crate::edges::{Held, named};
use std::ptr;
use wenc::tree::Space;
use wenc_calls::bytes;
use wenc_calls::format::{NAMED, list, sized};
use wenc_calls::size::text;
use wenc_capi::arguments::{IndexName, Producer};
use wenc_capi::component_types::wenc_type_own;
use wenc_capi::items::*;
use wenc_capi::sections::*;
use wenc_capi::{Handle, Status};

/// A component with this call, in a builder and by hand, has these bytes after its header.
#[track_caller]
fn in_both(expected: &[u8], call: impl Fn(*mut Handle) -> Status) {
    for mut held in [Held::builder(), Held::by_hand()] {
        assert_eq!(call(held.at()), Status::Done);
        assert!(held.finished()[8..] == *expected);
    }
}

#[test]
fn debug_names() {
    let (mut names, raw) = (Held::names(), b"raw");
    let (mut content, component) = (bytes!["component-name"], text(130));
    let at = names.at();
    let status = unsafe { wenc_names_component(at, component.as_ptr(), component.len()) };
    assert_eq!(status, Status::Done);
    content.extend(bytes![0x00, sized(&bytes![component.as_str()])]);
    for space in Space::ALL {
        let number = space.number() as u32;
        let of = [(number, text(number as usize)), (16_384, text(1))];
        let named = of.each_ref().map(|(index, name)| IndexName {
            name: name.as_ptr(),
            name_len: name.len(),
            index: *index,
        });
        let status = unsafe { wenc_names_items(at, number, named.as_ptr(), named.len()) };
        assert_eq!(status, Status::Done);
        let (_, sort) = NAMED.iter().find(|(of, _)| *of == space).expect("it has a sort");
        let all = list(of.iter().map(|(index, name)| bytes![*index, name.as_str()]));
        content.extend(bytes![0x01, sized(&bytes![*sort, all])]);
    }
    assert_eq!(unsafe { wenc_names_raw(at, 9, raw.as_ptr(), raw.len()) }, Status::Done);
    content.extend(bytes![0x09, sized(raw)]);
    // The section's handle stays valid.
    in_both(&bytes![0x00, sized(&content)], |to| unsafe { wenc_section(to, at) });
}

#[test]
fn producers() {
    let long = text(130);
    let tools = [("sdk", "a", ""), ("sdk", &long, "1"), ("language", "b", &long), ("sdk", "", "2")];
    let listed = tools.map(|(field, tool, version)| Producer {
        field: field.as_ptr(),
        field_len: field.len(),
        tool: tool.as_ptr(),
        tool_len: tool.len(),
        version: version.as_ptr(),
        version_len: version.len(),
    });
    // Adjacent tools with the same field share it.
    let fields = [&tools[..2], &tools[2..3], &tools[3..]];
    let field = |of: &[(&str, &str, &str)]| {
        bytes![of[0].0, list(of.iter().map(|(_, tool, version)| bytes![*tool, *version]))]
    };
    let content = bytes!["producers", list(fields.into_iter().map(field))];
    in_both(&bytes![0x00, sized(&content)], |to| unsafe {
        wenc_producers(to, listed.as_ptr(), listed.len())
    });
}

#[test]
fn raw_sections() {
    let data = text(130);
    let raw = sized(&bytes!["name", data.as_bytes()]);
    in_both(&bytes![0x00, raw.clone()], |to| unsafe {
        wenc_raw_custom_section(to, raw.as_ptr(), raw.len())
    });
    for id in [0, 11, 12, 255] {
        let mut component = Held::by_hand();
        let status = unsafe { wenc_raw_section(component.at(), id, data.as_ptr(), data.len()) };
        assert_eq!(status, Status::Done);
        assert_eq!(component.finished()[8..], bytes![i32::from(id), sized(data.as_bytes())]);
    }
}

/// A builder with a type, and a component by hand with the section of it.
fn inner() -> [Held; 2] {
    let (mut builder, mut by_hand, mut types) =
        (Held::builder(), Held::by_hand(), Held::section(7));
    for at in [builder.at(), types.at()] {
        assert_eq!(called!(wenc_type_own(at, ptr::null(), 5)), Ok(0));
    }
    assert_eq!(unsafe { wenc_section(by_hand.at(), types.at()) }, Status::Done);
    [builder, by_hand]
}

#[test]
fn components_in_components() {
    const INNER: &[u8] = b"\0asm\x0d\0\x01\0\x07\x03\x01\x69\x05";
    let name = named("inner");
    for mut nested in inner() {
        let mut outer = Held::builder();
        for index in 0..2 {
            let (to, from) = (outer.at(), nested.at());
            assert_eq!(called!(wenc_component_ref(to, &name, from)), Ok(index));
        }
        assert_eq!(called!(wenc_component(outer.at(), ptr::null(), nested.at())), Ok(2));
        assert!(nested.is_nothing());
        assert_eq!(outer.finished()[8..], bytes![0x04, sized(INNER)].repeat(3));
    }
    // Built by hand, a component returns no indices, and nests only others built by hand.
    let [mut builder, mut nested] = inner();
    let mut outer = Held::by_hand();
    let (to, none) = (outer.at(), ptr::null());
    assert_eq!(called!(wenc_component_ref(to, none, nested.at())), Ok(0));
    assert_eq!(called!(wenc_component_ref(to, none, builder.at())), Err(Status::BadArgument));
    assert_eq!(called!(wenc_component(to, none, nested.at())), Ok(0));
    assert_eq!(outer.finished()[8..], bytes![0x04, sized(INNER)].repeat(2));
    assert!(nested.is_nothing());
}
