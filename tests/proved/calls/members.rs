//! Parts of items, canonical functions by their rows, sections of a user's own, and which items
//! declarations count as.

use super::{is, section_is};
use crate::proved::proved_parts::strangers::own::Own;
use crate::proved::tests::hex::digits;
use crate::proved::wenc_base::{
    CompositeType, Fault, FuncType, GroupTree, Guarded, Module, NameMap, ProducersField,
    ProducersSection, Section, SubType, ValType,
};
use crate::proved::wenc_builder::ComponentBuilder;
use crate::proved::wenc_canon::{
    AddsSlotRow, CanonicalFunctionSection, CanonicalOption, NotCancellable, rows, rows::Row,
};
use crate::proved::wenc_parts::{
    Alias, ComponentExportKind, ComponentExternName, ComponentValType, ResultList,
};
use crate::proved::wenc_sections::{NamesOf, Space};
use crate::proved::wenc_types::counts::{Counts, IndexSpace, space_of_alias, space_of_kind};
use crate::shim::alloc::Global;
use crate::shim::string::{String, StringUsing};
use crate::shim::vec::{Vec, VecUsing};

const ROWS: [Row; 3] = [rows::STREAM_READ, rows::RESOURCE_DROP, rows::CONTEXT_GET];

/// A function with options and two without, by their rows.
fn by_rows<B: AddsSlotRow>(to: &mut B) -> Result<B::Answer, Fault> {
    let options = [CanonicalOption::UTF8, CanonicalOption::Memory(0)];
    to.add_row_with(ROWS[0], &128u32, options.into_iter())?;
    to.add_row(ROWS[1], &128u32)?;
    to.add_slot_row(ROWS[2], ValType::I32, 0)
}

#[test]
fn rows_are_added() {
    let [read, drop, get] = ROWS.map(|row| row.1);
    let wanted = [8, 14, 3, read, 0x80, 1, 2, 0, 3, 0, drop, 0x80, 1, get, 0x7f, 0];
    let mut section = CanonicalFunctionSection::new(Global);
    by_rows(&mut section).unwrap();
    section_is(&section, 8, &digits(&wanted));
    let mut builder = ComponentBuilder::new(Global).unwrap();
    assert_eq!(by_rows(&mut builder), Ok(2));
    assert_eq!(builder.finish().unwrap()[8..], wanted);
}

#[test]
fn parts() {
    is(&NotCancellable, "00");
    is(&ResultList(None), "0100");
    is(&ResultList(Some(ComponentValType::Type(64))), "00c000");
    let function = FuncType::new(Global, [ValType::I32].into_iter(), [ValType::F64].into_iter());
    let composite_type = CompositeType::Func(function.unwrap());
    let open = SubType { is_final: false, supertype_idx: None, composite_type };
    is(&Guarded(true, &open), "00500060017f017c");
    is(&Guarded(false, &open), "500060017f017c");
    is(&Guarded(true, &GroupTree::Sub(open)), "00500060017f017c");
    let mut names = NameMap::new(Global);
    names.append(0, "t").unwrap();
    is(&NamesOf(Space::Types, &names), "01050301000174");
    let mut field = ProducersField::new(Global);
    field.value("a", "1").unwrap();
    let mut producers = ProducersSection::new(Global);
    producers.field("sdk", &field).unwrap();
    let mut data = Vec::new_using(Global);
    producers.encode_data(&mut data).unwrap();
    assert_eq!(digits(&data), "010373646b0101610131");
    assert_eq!(Section::id(&producers), 0);
    is(&field.try_clone().unwrap(), "0101610131");
}

#[test]
fn names_that_are_owned() {
    let text = String::from_str(Global, "a").unwrap();
    is(&&text, "0161");
    is(&ComponentExternName::from(&text), "000161");
    is(&ComponentExternName::from(text), "000161");
}

#[test]
fn of_a_stranger() {
    let own = Own(&[0x2a]);
    let mut sink = Vec::new_using(Global);
    own.append_to(&mut sink).unwrap();
    assert_eq!((Section::id(&own), sink.as_slice()), (98, b"\x62\x2a".as_slice()));
    section_is(&own, 99, "632a");
    let mut module = Module::new(Global).unwrap();
    module.section(&own).unwrap();
    let mut builder = ComponentBuilder::new(Global).unwrap();
    assert_eq!(builder.core_module(Some("m"), &module), Ok(0));
    let wanted = "0061736d0d000100010a0061736d01000000622a";
    assert_eq!(digits(&builder.finish().unwrap()), wanted);
}

#[test]
fn counts() {
    let parts = |counts: Counts| [counts.core_types, counts.types, counts.instances];
    let kinds = [IndexSpace::CoreType, IndexSpace::Type, IndexSpace::Instance].map(Some);
    let twice = kinds.into_iter().chain(kinds);
    let counted = twice.fold(Counts::none(), |counts, kind| counts.counted(kind, 7));
    assert_eq!(parts(counted.counted(None, 7)), [2, 2, 2]);
    for (at, kind) in kinds.into_iter().enumerate() {
        let mut left = [2, 2, 2];
        left[at] = 1;
        assert_eq!(parts(counted.uncounted(kind).uncounted(None)), left);
    }
    let export = |kind| Alias::InstanceExport { instance: 0, kind, name: "f" };
    let ty = space_of_kind(ComponentExportKind::Type);
    let instance = space_of_alias(&export(ComponentExportKind::Instance));
    assert!(matches!((ty, instance), (Some(IndexSpace::Type), Some(IndexSpace::Instance))));
    assert!(space_of_alias(&export(ComponentExportKind::Func)).is_none());
    assert_eq!(Space::of_alias(&export(ComponentExportKind::Func)), Space::Funcs);
}
