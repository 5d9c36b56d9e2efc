//! What a wrong line of the sources changes, where only long tests would see it: a must-fail edit
//! that no other quick test fails for has a row here.

use crate::proved::proved_parts::strangers::endings::{with_a_core_type, with_a_type};
use crate::proved::proved_tests::applied::import_counted;
use crate::proved::wasm_encoder::{Command, Running, build, producers_command};
use crate::proved::wenc_base::{Encode, EntityType, ProducersSection};
use crate::proved::wenc_builder::ComponentBuilder;
use crate::proved::wenc_canon::{AddsBuiltin, CanonicalFunctionSection};
use crate::proved::wenc_list::{ListFault, Names, ProducersParts, Sections, names_in};
use crate::proved::wenc_parts::ComponentExternName;
use crate::proved::wenc_read::{Expected, NestedRefusal, Refusal};
use crate::proved::wenc_view::{CoreInstanceView, ListOf, TypeView, View, type_at};
use crate::shim::alloc::Global;
use crate::shim::borrow::CowStr;
use crate::shim::iter::Members;
use crate::shim::string::{String, StringUsing};
use crate::shim::vec::{Vec, VecUsing};

const HEADER: &[u8] = b"\0asm\x0d\0\x01\0";

#[test]
fn types_that_encoders_end() {
    let ty = with_a_type(Global).unwrap();
    assert_eq!(ty.as_slice(), [HEADER, b"\x07\x03\x01\x6b\x73"].concat());
    let ty = with_a_core_type(Global).unwrap();
    assert_eq!(ty.as_slice(), [HEADER, b"\x03\x04\x01\x60\0\0"].concat());
}

#[test]
fn imports_have_the_indices_before_them() {
    let mut builder = ComponentBuilder::new(Global).unwrap();
    for (index, name) in ["f", "g"].into_iter().enumerate() {
        let name = ComponentExternName::from(name);
        assert_eq!(import_counted(&mut builder, name, 0), Ok(index as u32));
    }
}

/// Commands add these sections, and their answers are no indices.
#[test]
fn custom_sections_by_commands() {
    let text = |bytes: &[u8]| Vec::from_slice(Global, bytes).unwrap();
    let producers = ProducersSection::new(Global);
    for (command, section) in [
        (
            Command::Custom { name: String::from_str(Global, "a").unwrap(), data: text(b"\x2a") },
            &b"\0\x03\x01a\x2a"[..],
        ),
        (Command::RawCustom { bytes: text(b"\x02\x01a") }, b"\0\x02\x01a"),
        (producers_command(Global, &producers).unwrap(), b"\0\x0b\x09producers\0"),
    ] {
        let mut running = Running::new(Global).unwrap();
        assert_eq!(running.run(&command), Ok(None));
        assert_eq!(running.finish().unwrap().as_slice(), [HEADER, section].concat());
        let built = build(Global, &[command]).unwrap();
        assert_eq!(built.answers.as_slice(), [Ok(None)]);
        assert_eq!(built.bytes.as_slice(), [HEADER, section].concat());
    }
}

#[test]
fn operands_in_their_order() {
    let mut section = CanonicalFunctionSection::new(Global);
    section.waitable_set_wait(5).unwrap();
    section.thread_new_indirect(1, 2).unwrap();
    let holder = section.into_holder();
    assert_eq!(holder.as_slice(), b"\x20\0\x05\x27\x01\x02");
}

#[test]
fn an_option_that_is_empty() {
    let name = ComponentExternName {
        name: CowStr::Borrowed("a"),
        implements: None,
        version_suffix: None,
        external_id: Some(CowStr::Owned(String::from_str(Global, "").unwrap())),
    };
    let mut bytes = Vec::new_using(Global);
    name.encode(&mut bytes).unwrap();
    assert_eq!(bytes.as_slice(), b"\x02\x01a\x01\x02\0");
}

/// A byte is left, or the bytes end.
#[test]
fn ends_of_what_has_all_its_items() {
    let mut parts = ProducersParts::new(b"\0\x2a").unwrap();
    assert_eq!(parts.next().err(), Some(Refusal { left: 1, expected: Expected::End }));
    let bytes = [HEADER, b"\x0a\x07\x01\0\x01f\x01\0\x09"].concat();
    let mut items = Sections::new(&bytes).unwrap().next().unwrap().unwrap();
    assert!(items.next().unwrap().is_some());
    let end = NestedRefusal::Flat(Refusal { left: 1, expected: Expected::End });
    assert_eq!(items.next_or_refusal().err(), Some(end));
    let Err(refusal) = names_in(0, b"\x03ab") else { panic!("it is too short") };
    assert_eq!(refusal, Refusal { left: 2, expected: Expected::Bytes(3) });
    let few = Refusal { left: 0, expected: Expected::Bytes(1) };
    assert_eq!(few.or(b"", Expected::Type), Refusal { left: 0, expected: Expected::Type });
}

#[test]
fn a_type_too_deep_is_a_fault() {
    let deep = [b"\x01", &b"\x42\x01\x01".repeat(100)[..], b"\x42\0"].concat();
    let bytes = [HEADER, b"\x07\xaf\x02", &deep].concat();
    let mut items = Sections::new(&bytes).unwrap().next().unwrap().unwrap();
    assert_eq!(items.next().err(), Some(ListFault::TooDeep { place: 8 }));
}

/// The members that are read, whether or not the bytes behind them could be read, too.
#[test]
fn lists_have_their_members_alone() {
    let (list, _) = ListOf::<u32>::view_of(b"\x01\x05\x06\x07").unwrap();
    let mut members = list;
    let read = [(); 3].map(|()| Members::next(&mut members));
    assert_eq!(read, [Some(5), None, None]);
    let (instance, rest) = CoreInstanceView::view_of(b"\0\x05\x01\x01a\x12\x07").unwrap();
    let CoreInstanceView::Instantiate { module: 5, args } = instance else { panic!("it is one") };
    assert_eq!((args.left, args.count(), rest), (1, 1, &b""[..]));
    for rest in [&b""[..], b"\x01\x7f"] {
        let bytes = [b"\x41\x01\x01\x7f", rest].concat();
        let Ok((TypeView::Component(mut decls), _)) = type_at(9, &bytes) else { panic!("it is") };
        let counts = [(); 3].map(|()| (decls.left, Members::next(&mut decls).is_some()));
        assert_eq!(counts, [(1, true), (0, false), (0, false)]);
        let bytes = [b"\x42\x01\x01\x7f", rest].concat();
        let Ok((TypeView::Instance(mut decls), _)) = type_at(9, &bytes) else { panic!("it is") };
        let counts = [(); 3].map(|()| (decls.left, Members::next(&mut decls).is_some()));
        assert_eq!(counts, [(1, true), (0, false), (0, false)]);
    }
}

/// Where a list is, also one without members, and what follows its last member.
#[test]
fn lists_have_their_places() {
    let (mut list, _) = ListOf::<u32>::view_of(b"\x01\x05\x06\x07").unwrap();
    assert_eq!((Members::next(&mut list), list.bytes), (Some(5), &b"\x06\x07"[..]));
    let (none, _) = ListOf::<u32>::view_of(b"\0\x06").unwrap();
    assert_eq!((none.left, none.bytes), (0, &b"\x06"[..]));
    let Ok((TypeView::Component(none), _)) = type_at(9, b"\x41\0\x06") else { panic!("it is") };
    assert_eq!((none.left, none.bytes, none.depth_left), (0, &b"\x06"[..], 8));
    let bytes = b"\x41\x01\x01\x7f\x06";
    let Ok((TypeView::Component(mut decls), _)) = type_at(9, bytes) else { panic!("it is") };
    assert!(Members::next(&mut decls).is_some() && decls.bytes == b"\x06");
    let Ok(Names::Items(_, none)) = names_in(1, b"\x01\0") else { panic!("they are names") };
    assert!(none.left == 0 && none.bytes.is_empty());
}

#[test]
fn a_core_import_has_its_module_first() {
    let read = <(&str, &str, EntityType)>::view_of(b"\x01m\x01n\0\x05");
    let ((module, name, _), _) = read.unwrap();
    assert_eq!((module, name), ("m", "n"));
}
