//! Core types, and types with declarations.

use super::{is_behind, is_listed};
use wenc::*;
use wenc_calls::encoded::encoded;
use wenc_calls::table::core_types::subtype;

/// A function type with these parameters.
fn function<const N: usize>(params: [ValType; N]) -> CompositeInnerType {
    CompositeInnerType::Func(FuncType::new(params, []))
}

fn open() -> SubType {
    subtype(false, None, function([]))
}

const MEMORY: EntityType = EntityType::Memory(MemoryType {
    minimum: 1,
    maximum: Some(2),
    memory64: false,
    shared: true,
    page_size_log2: None,
});

const TAG: EntityType = EntityType::Tag(TagType { kind: TagKind::Exception, func_type_idx: 0 });

pub const TABLE: EntityType = EntityType::Table(TableType {
    element_type: RefType::FUNCREF,
    table64: false,
    minimum: 0,
    maximum: None,
    shared: false,
});

pub const GLOBAL: EntityType =
    EntityType::Global(GlobalType { val_type: ValType::I64, mutable: true, shared: false });

const FIELDS: [FieldType; 2] = [
    FieldType { element_type: StorageType::I8, mutable: true },
    FieldType { element_type: StorageType::Val(ValType::I32), mutable: false },
];

const REFERENCES: [ValType; 4] = [
    ValType::FUNCREF,
    ValType::Ref(RefType { nullable: false, heap_type: HeapType::FUNC }),
    ValType::Ref(RefType { nullable: true, heap_type: HeapType::ANY }),
    ValType::Ref(RefType { nullable: true, heap_type: HeapType::Concrete(64) }),
];

/// A core type, and the bytes after the header of a component with only that type.
type Row = (fn(ComponentCoreTypeEncoder<'_>), &'static str);

const ROWS: [Row; 9] = [
    (|ty| ty.core().subtype(&open()), "03 07 01 00 50 00 60 00 00"),
    (
        |ty| {
            let mut module = ModuleType::new();
            module.ty().subtype(&open());
            ty.module(&module);
        },
        "03 09 01 50 01 01 50 00 60 00 00",
    ),
    (
        |ty| {
            let inner = [function([]), function([ValType::I32])];
            ty.core().rec(inner.map(|inner| subtype(true, None, inner)));
        },
        "03 0a 01 4e 02 60 00 00 60 01 7f 00",
    ),
    (|ty| ty.module(&ModuleType::new()), "03 03 01 50 00"),
    (
        |ty| {
            let mut module = ModuleType::new();
            module.import("m", "n", MEMORY).alias_outer_core_type(1, 0).export("t", TAG);
            assert_eq!(module.type_count(), 1);
            ty.module(&module);
        },
        "03 17 01 50 03 00 01 6d 01 6e 02 03 01 02 02 10 01 01 00 03 01 74 04 00 00",
    ),
    (
        |ty| {
            let element = FieldType { element_type: StorageType::I16, mutable: false };
            let array = CompositeInnerType::Array(ArrayType(element));
            ty.core().subtype(&subtype(true, Some(4), array));
        },
        "03 07 01 4f 01 04 5e 77 00",
    ),
    (|ty| ty.core().struct_(FIELDS), "03 07 01 5f 02 78 01 7f 00"),
    (|ty| ty.core().function(REFERENCES, []), "03 0c 01 60 04 70 64 70 63 6e 63 c0 00 00"),
    (
        |ty| {
            let mut module = ModuleType::new();
            module.export("t", TABLE).export("g", GLOBAL);
            ty.module(&module);
        },
        "03 10 01 50 02 03 01 74 01 70 00 00 03 01 67 03 7e 01",
    ),
];

#[test]
fn core_types() {
    for (write, wanted) in ROWS {
        let (mut b, mut section) = (ComponentBuilder::default(), CoreTypeSection::new());
        let (index, ty) = b.core_type(None);
        write(ty);
        write(section.ty());
        assert_eq!((index, b.core_type_count(), section.len()), (0, 1, 1));
        let mut component = Component::new();
        component.section(&section);
        for bytes in [b.finish(), component.finish()] {
            is_behind(&bytes, wanted);
            is_listed(&bytes);
        }
    }
}

/// A component type with a core type, a resource and an alias.
#[test]
fn a_component_type() {
    let mut ty = ComponentType::new();
    ty.core_type().core().subtype(&open());
    ty.import("r", ComponentTypeRef::Type(TypeBounds::SubResource));
    let kind = ComponentOuterAliasKind::CoreType;
    ty.alias(Alias::Outer { kind, count: 1, index: 0 });
    assert_eq!((ty.core_type_count(), ty.type_count(), ty.instance_count()), (2, 1, 0));
    let (mut component, mut types) = (Component::new(), ComponentTypeSection::new());
    component.section(types.component(&ty));
    let wanted = "07 16 01 41 03 00 00 50 00 60 00 00 03 00 01 72 03 01 02 00 10 02 01 00";
    is_behind(component.as_slice(), wanted);
    is_listed(component.as_slice());
}

const UNFINISHED: Error = Error::Unfinished;

/// The encoder of the section's type is dropped.
#[test]
fn an_unfinished_core_type() {
    let mut types = CoreTypeSection::new();
    drop(types.ty());
    assert_eq!((types.len(), types.is_finished()), (1, false));
    assert_eq!(types.try_ty().err(), Some(UNFINISHED));
}

/// The component type has one whose encoder is dropped.
#[test]
fn an_unfinished_component_type() {
    let (mut ty, mut types) = (ComponentType::new(), ComponentTypeSection::new());
    drop(ty.ty());
    assert_eq!(types.try_component(&ty).err(), Some(UNFINISHED));
    assert_eq!((types.is_finished(), types.len()), (true, 0));
    assert_eq!(types.ty().try_component(&ty), Err(UNFINISHED));
    assert_eq!((types.is_finished(), types.len()), (false, 1));
}

#[test]
fn an_instance_type_is_given_up() {
    let mut ty = InstanceType::new();
    drop(ty.ty());
    assert_eq!(ty.len(), 1);
    assert!(ty.discard_unfinished());
    assert_eq!((ty.len(), ty.type_count()), (0, 0));
    assert_eq!(encoded(&ty), [0x42, 0x00]);
}
