//! Sections, each alone in a component.

use super::{NONE, STRING, is_behind, is_listed};
use ComponentExportKind::{Func, Instance};
use wenc::*;

/// A module with a custom section that is empty.
fn module() -> Module {
    let mut module = Module::new();
    module.section(&CustomSection { name: "x".into(), data: [][..].into() });
    module
}

fn producers() -> ProducersSection {
    let (mut field, mut section) = (ProducersField::new(), ProducersSection::new());
    field.value("a", "1");
    section.field("sdk", &field);
    section
}

/// The name of the component, that of a core type, and bytes under another id.
fn names() -> ComponentNameSection {
    let (mut names, mut map) = (ComponentNameSection::new(), NameMap::new());
    map.append(0, "t");
    names.component("c");
    names.core_types(&map);
    names.raw(9, &[0xaa]);
    names
}

/// Calls of a new section, and the bytes of the component with that section after its header.
type Row = (fn() -> Component, &'static str);

macro_rules! rows {
    ($($section:expr => |$s:ident| $calls:expr, $bytes:literal;)*) => {
        [$((|| match $section {
            // What a section borrows has to live as long. With Rust 1.85 `let` would drop it.
            #[allow(unused_mut, reason = "there may be no calls")]
            mut $s => {
                _ = $calls;
                let mut component = Component::new();
                component.section(&$s);
                component
            }
        }, $bytes)),*]
    };
}

const ROWS: &[Row] = &rows! {
    InstanceSection::new() => |s| s
        .export_items([("foo", ExportKind::Func, 0)])
        .instantiate(1, [("foo", ModuleArg::Instance(0))]),
        "02 12 02 01 01 03 66 6f 6f 00 00 00 01 01 03 66 6f 6f 12 00";
    ComponentInstanceSection::new() => |s| s
        .export_items([("foo", Func, 0)])
        .instantiate(1, [("foo", Instance, 0)]),
        "05 13 02 01 01 00 03 66 6f 6f 01 00 00 01 01 03 66 6f 6f 05 00";
    ComponentNameSection::new() => |s| s.component(""), "00 12 0e cn 00 01 00";
    names() => |s| (), "00 1e 0e cn 00 02 01 63 01 06 00 10 01 00 01 74 09 01 aa";
    CanonicalFunctionSection::new() => |s| s.lift(0, 0, [CanonicalOption::UTF8]),
        "08 07 01 00 00 00 01 00 00";
    CanonicalFunctionSection::new() => |s| s
        .context_get(ValType::I32, 0)
        .task_return(None, [])
        .thread_spawn_indirect(1, 2),
        "08 0b 03 0a 7f 00 09 01 00 00 41 01 02";
    CanonicalFunctionSection::new() => |s| s
        .task_return(Some(STRING), [CanonicalOption::UTF8, CanonicalOption::Memory(0)])
        .stream_cancel_read(3, true)
        .waitable_set_poll(0),
        "08 0e 03 09 00 73 02 00 03 00 11 03 01 21 00 00";
    ComponentExportSection::new() => |s| s.export("foo", Func, 0, None),
        "0b 09 01 00 03 66 6f 6f 01 00 00";
    ComponentImportSection::new() => |s| s.import("a", ComponentTypeRef::Module(5)),
        "0a 07 01 00 01 61 00 11 05";
    ComponentStartSection { function_index: 0, args: [0, 1], results: 1 } => |s| (),
        "09 05 00 02 00 01 01";
    NestedComponentSection(&Component::new()) => |s| (), "04 08 00 61 73 6d 0d 00 01 00";
    ModuleSection(&Module::new()) => |s| (), "01 08 00 61 73 6d 01 00 00 00";
    ModuleSection(&module()) => |s| (), "01 0c 00 61 73 6d 01 00 00 00 00 02 01 78";
    producers() => |s| (),
        "00 14 09 70 72 6f 64 75 63 65 72 73 01 03 73 64 6b 01 01 61 01 31";
    ComponentAliasSection::new() => |s| (), "06 01 00";
    ComponentTypeSection::new() => |s| s.defined_type().record(NONE), "07 03 01 72 00";
    ComponentTypeSection::new() => |s| {
        s.defined_type().result(None, Some(STRING));
        s.defined_type().map(PrimitiveValType::String, PrimitiveValType::U32);
        s.defined_type().fixed_length_list(PrimitiveValType::U8, 128);
        s.defined_type().own(64)
    }, "07 0e 04 6a 00 01 73 63 73 79 67 7d 80 01 69 40";
    ComponentTypeSection::new() => |s| {
        let mut ty = InstanceType::new();
        ty.ty().instance(&InstanceType::new());
        s.instance(&ty)
    }, "07 06 01 42 01 01 42 00";
    ComponentTypeSection::new() => |s| s.resource(ValType::I32, None), "07 04 01 3f 7f 00";
    ComponentTypeSection::new() => |s| s.resource(ValType::I32, Some(3)), "07 05 01 3f 7f 01 03";
    ComponentTypeSection::new() => |s| {
        s.function().params(NONE).result(None);
    }, "07 05 01 40 00 01 00";
};

#[test]
fn rows() {
    for (component, wanted) in ROWS {
        let bytes = component().finish();
        is_behind(&bytes, wanted);
        is_listed(&bytes);
    }
}

#[test]
fn a_function_and_its_import() {
    let (mut types, mut imports) = (ComponentTypeSection::new(), ComponentImportSection::new());
    types.function().params([("a", STRING), ("b", STRING)]).result(Some(STRING));
    imports.import("f", ComponentTypeRef::Func(0));
    let mut component = Component::new();
    component.section(&types).section(&imports);
    let wanted = "07 0b 01 40 02 01 61 73 01 62 73 00 73 0a 06 01 00 01 66 01 00";
    is_behind(component.as_slice(), wanted);
    is_listed(component.as_slice());
}

/// A section type of the caller's own.
struct Own;

impl Encode for Own {
    fn encode(&self, sink: &mut Vec<u8>) {
        sink.push(0x2a);
    }
}

impl ComponentSection for Own {
    fn id(&self) -> u8 {
        99
    }
}

/// Sections with unknown ids, or without a size within bounds.
#[test]
fn any_section() {
    let component = |section: &dyn Fn(&mut Component)| {
        let mut component = Component::new();
        section(&mut component);
        component.finish()
    };
    is_behind(&component(&|all| _ = all.section(&Own)), "63 2a");
    is_behind(&component(&|all| _ = all.section(&RawCustomSection(&[0xaa]))), "00 aa");
    is_behind(&component(&|all| _ = all.section(&RawSection { id: 12, data: &[] })), "0c 00");
}
