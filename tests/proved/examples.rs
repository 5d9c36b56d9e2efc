//! The examples of the doc comments and the proved callers, run. Expected bytes come from
//! elsewhere: those of components from Rust's `wasm-encoder` 0.263.0; those of values, core types,
//! modules and custom sections from the format's rows. `tests/real/shown.rs` reads each.

use crate::proved::proved_lists::examples::list;
use crate::proved::proved_parts::by_hand::by_hand;
use crate::proved::proved_parts::examples::{base, builder, canon, parts, sections, trees, types};
use crate::proved::proved_parts::wrapping::wrapped;
use crate::proved::proved_scripts::examples::program;
use crate::proved::proved_tests::examples::commands;
use crate::proved::wasm_encoder::{
    Component, ComponentImportSection, ComponentTypeRef, ComponentTypeSection, ComponentValType,
    Encode, Fault, PrimitiveValType,
};
use crate::proved::wenc_list::{ItemTree, ItemView, Names};
use crate::proved::wenc_parts::Alias;
use crate::proved::wenc_view::View;
use crate::shim::alloc::Global;
use crate::shim::vec::{Vec, VecUsing};

/// What is made is written as these bytes.
fn written<T: Encode>(made: Result<T, Fault>) -> Result<Vec<u8>, Fault> {
    let mut sink = Vec::new_using(Global);
    made?.encode(&mut sink)?;
    Ok(sink)
}

/// Each example has written these bytes.
macro_rules! write {
    ($($example:expr => $bytes:literal;)*) => {
        $(assert_eq!($example.unwrap().as_slice(), $bytes, "{}", stringify!($example));)*
    };
}

#[test]
fn values_and_builders() {
    write! {
        base::encode(Global) => b"\x01f\x02\x01\x02";
        base::holder(Global) => b"\x04\x01\x01f\x00";
        base::module(Global) => b"\0asm\x01\0\0\0\x00\x02\x01x";
        base::names(Global) => b"\x01\x00\x03now";
        trees::canon(Global) => b"\x03\x03";
        builder::builder(Global) =>
            b"\0asm\x0d\0\x01\0\x0a\x06\x01\x00\x01f\x03\x01\x0b\x07\x01\x00\x01g\x03\x00\x00";
        builder::types(Global) =>
            b"\0asm\x0d\0\x01\0\x07\x03\x01\x6b\x73\x0b\x0a\x01\x00\x04name\x03\x00\x00";
        by_hand(Global) =>
            b"\0asm\x0d\0\x01\0\x0a\x06\x01\x00\x01i\x03\x01\x06\x05\x01\x03\x02\x00\x00\
            \x0b\x07\x01\x00\x01g\x03\x01\x00";
        wrapped(Global, MODULE) =>
            b"\0asm\x0d\0\x01\0\
            \x01\x21\0asm\x01\0\0\0\x01\x04\x01\x60\x00\x00\x03\x02\x01\x00\
            \x07\x07\x01\x03run\x00\x00\x0a\x04\x01\x02\x00\x0b\
            \x02\x04\x01\x00\x00\x00\x06\x09\x01\x00\x00\x01\x00\x03run\
            \x07\x05\x01\x40\x00\x01\x00\x08\x06\x01\x00\x00\x00\x00\x00\
            \x0b\x09\x01\x00\x03run\x01\x00\x00";
    }
}

/// A core module that exports "run".
const MODULE: &[u8] = b"\0asm\x01\0\0\0\x01\x04\x01\x60\x00\x00\x03\x02\x01\x00\
    \x07\x07\x01\x03run\x00\x00\x0a\x04\x01\x02\x00\x0b";

/// A start, after an imported function and an imported value with which it is called.
fn started() -> Result<Vec<u8>, Fault> {
    let number = ComponentValType::Primitive(PrimitiveValType::U32);
    let mut types = ComponentTypeSection::new(Global);
    let mut function = types.function()?;
    function.params([("n", number)].into_iter())?;
    function.result(None)?;
    let mut imports = ComponentImportSection::new(Global);
    imports.import("f".into(), ComponentTypeRef::Func(0))?;
    imports.import("v".into(), ComponentTypeRef::Value(number))?;

    let mut component = Component::new(Global)?;
    component.section(&types)?;
    component.section(&imports)?;
    sections::start(&mut component)?;
    Ok(component.finish())
}

#[test]
fn sections_by_hand() {
    write! {
        base::custom(Global) => b"\0asm\x0d\0\x01\0\x00\x07\x05notes\x2a";
        base::producers(Global) =>
            b"\0asm\x0d\0\x01\0\x00\x1f\x09producers\x01\x08language\x01\x04Rust\x042024";
        sections::component(Global) => b"\0asm\x0d\0\x01\0\x0a\x09\x01\x00\x04file\x03\x01";
        sections::aliases(Global) =>
            b"\0asm\x0d\0\x01\0\x0a\x09\x01\x00\x04file\x03\x01\x06\x05\x01\x03\x02\x00\x00";
        sections::exports(Global) =>
            b"\0asm\x0d\0\x01\0\x0a\x09\x01\x00\x04file\x03\x01\
            \x0b\x0c\x01\x00\x06handle\x03\x00\x00";
        sections::imports(Global) =>
            b"\0asm\x0d\0\x01\0\x0a\x11\x02\x00\x04file\x03\x01\x00\x03log\x03\x00\x00";
        sections::core_instances(Global) =>
            b"\0asm\x0d\0\x01\0\x01\x08\0asm\x01\0\0\0\x08\x02\x01\x05\
            \x02\x15\x02\x01\x01\x06cancel\x00\x00\x00\x00\x01\x03env\x12\x00";
        sections::instances(Global) =>
            b"\0asm\x0d\0\x01\0\x0a\x09\x01\x00\x04file\x03\x01\x04\x08\0asm\x0d\0\x01\0\
            \x05\x16\x02\x01\x01\x00\x04file\x03\x00\x00\x00\x01\x05files\x05\x00";
        sections::module(Global) =>
            b"\0asm\x0d\0\x01\0\x01\x0c\0asm\x01\0\0\0\x00\x02\x01x";
        sections::nested(Global) =>
            b"\0asm\x0d\0\x01\0\x04\x0c\0asm\x0d\0\x01\0\x00\x02\x01x";
        started() =>
            b"\0asm\x0d\0\x01\0\x07\x08\x01\x40\x01\x01n\x79\x01\x00\
            \x0a\x0b\x02\x00\x01f\x01\x00\x00\x01v\x02\x79\x09\x04\x00\x01\x00\x00";
        sections::core_types(Global) => b"\0asm\x0d\0\x01\0\x03\x05\x01\x60\x01\x7e\x00";
        sections::types(Global) => b"\0asm\x0d\0\x01\0\x07\x0c\x02\x72\x01\x04name\x73\x3f\x7f\x00";
        sections::names(Global) =>
            b"\0asm\x0d\0\x01\0\x00\x20\x0ecomponent-name\x00\x06\x05clock\
            \x01\x07\x01\x01\x00\x03now";
        canon::functions(Global) =>
            b"\0asm\x0d\0\x01\0\x0a\x09\x01\x00\x04file\x03\x01\
            \x08\x08\x02\x03\x00\x09\x01\x00\x01\x01";
    }
}

#[test]
fn types_by_encoders() {
    write! {
        written(types::declarations(Global)) => b"\x42\x01\x00\x60\x00\x00";
        written(types::module_type(Global)) =>
            b"\x50\x02\x01\x60\x00\x01\x7f\x03\x06answer\x00\x00";
        written(types::component_type(Global)) =>
            b"\x11\x01\x41\x02\x01\x70\x7d\x03\x00\x05bytes\x03\x00\x00";
        written(types::instance_type(Global)) =>
            b"\x10\x01\x42\x02\x01\x6b\x73\x04\x00\x04name\x03\x00\x00";
        written(types::core_types(Global)) =>
            b"\x0c\x02\x60\x00\x01\x7c\x50\x01\x02\x10\x01\x01\x00";
        written(types::types(Global)) => b"\x06\x02\x3f\x7f\x00\x69\x00";
        written(types::defined_types(Global)) =>
            b"\x13\x02\x72\x02\x04name\x73\x06street\x73\x6b\x73";
        written(types::func_type(Global)) => b"\x0b\x01\x40\x01\x04line\x73\x01\x00";
    }
    let mut sink = Vec::new_using(Global);
    base::core_type(Global).unwrap().encode_section(&mut sink).unwrap();
    assert_eq!(sink.as_slice(), b"\x05\x01\x60\x01\x7f\x00");
}

#[test]
fn trees_and_parts() {
    write! {
        written(trees::core_type(Global)) => b"\x50\x02\x01\x60\x00\x01\x7f\x03\x06answer\x00\x00";
        written(trees::defined(Global)) => b"\x6e\x02\x04read\x05write";
        written(trees::ty(Global)) => b"\x42\x02\x01\x40\x00\x01\x00\x04\x00\x04stop\x01\x00";
        written(trees::core_instance(Global)) => b"\x00\x01\x01\x03env\x12\x00";
        written(trees::instance(Global)) => b"\x01\x01\x00\x03now\x01\x00";
        written(Ok(parts::alias())) => b"\x03\x02\x01\x02";
        written(Ok(parts::extern_name())) => b"\x02\x10wall:clock/now@1\x01\x01\x04.2.3";
    }
}

/// After what was there.
#[test]
fn sections_behind() {
    let (bytes, count) = canon::behind(Vec::new_using(Global)).unwrap();
    assert!(count == 1 && bytes.as_slice() == b"\x03\x02".as_slice());
    let (bytes, count) = sections::behind(bytes, parts::alias()).unwrap();
    assert!(count == 1 && bytes.as_slice() == b"\x03\x02\x03\x02\x01\x02".as_slice());
    let (count, copy) = sections::counted(Global).unwrap();
    assert_eq!(count, 1);
    assert_eq!(written(Ok(copy)).unwrap().as_slice(), b"\x09\x01\x00\x03log\x01\x00\x00");
}

/// A component that imports one type.
const RUN: &[u8] = b"\0asm\x0d\0\x01\0\x0a\x09\x01\x00\x04file\x03\x01";

/// What is printed of a script.
fn script() -> Result<Vec<u8>, Fault> {
    let (status, out) = program::script(Global);
    assert_eq!(status, 0);
    Ok(out)
}

#[test]
fn runs() {
    let import = commands::command(Global).unwrap();
    let (index, bytes) = commands::running(Global, &import).unwrap();
    assert!(index == Some(0) && bytes.as_slice() == RUN);
    let (bytes, refused) = commands::run(Global).unwrap();
    assert!(!refused && bytes.as_slice() == RUN);
    assert!(list::imports(Global, RUN).unwrap());
    let aliases = b"\0asm\x0d\0\x01\0\x06\x06\x02\x03\x02\x00\x00\x09";
    assert_eq!(list::read_before(Global, aliases), Some(1));
    assert_eq!(list::read_before(Global, RUN), None);
    let item = list::first_item(RUN).unwrap();
    assert!(matches!(item, Some(ItemView::Import { name, .. }) if name.name == "file"));
    let item = list::first_tree(Global, RUN).unwrap();
    assert!(matches!(item, Some(ItemTree::Import { name, .. }) if name.name.as_str() == "file"));
    let part = list::first_section(b"\0asm\x01\0\0\0\x01\x01\0\x0c");
    assert_eq!(part, Ok(((1, &b"\0"[..]), &b"\x0c"[..])));
    let (names, rest) = list::first_names(b"\0\x02\x01c\x09").unwrap();
    assert!(matches!(names, Names::Component("c")) && rest == b"\x09");
    assert_eq!(list::sum_of(b"\x02\x80\x01\x07\x2a"), Ok((135, &b"\x2a"[..])));
    let (alias, rest) = Alias::view_of(b"\x03\x02\x01\x02\x2a").unwrap();
    let tree = list::alias_tree(Global, alias).unwrap();
    assert!(tree.as_alias() == parts::alias() && rest == b"\x2a");
    write! {
        script() => b"0\n0061736d0d00010001080061736d01000000\n";
    }
}
