//! Core types that aren't in WebAssembly 3.0: encoding them fails and writes nothing.

use std::panic::{AssertUnwindSafe, catch_unwind};
use wenc::Unsupported::{self, *};
use wenc::{
    AbstractHeapType, ArrayType, CanonicalFunctionSection, Component, ComponentBuilder,
    ComponentType, ComponentTypeSection, CompositeInnerType, CompositeType, ContType,
    CoreTypeEncoder, CoreTypeSection, Encode, EntityType, Error, FieldType, FuncType, GlobalType,
    HeapType, InstanceType, MemoryType, ModuleType, RefType, StorageType, StructType, SubType,
    TableType, ValType,
};
use wenc_calls::encoded::encoded;
use wenc_calls::table::core_types::subtype;

const SHARED: HeapType = HeapType::Abstract { shared: true, ty: AbstractHeapType::Func };
const EXACT: ValType = ValType::Ref(RefType { nullable: false, heap_type: HeapType::Exact(0) });
const FIELD: FieldType = field(StorageType::Val(ValType::CONTREF), false);

pub const fn field(element_type: StorageType, mutable: bool) -> FieldType {
    FieldType { element_type, mutable }
}

fn function() -> CompositeInnerType {
    CompositeInnerType::Func(FuncType::new([], []))
}

fn structure() -> CompositeInnerType {
    CompositeInnerType::Struct(StructType { fields: [FIELD].into() })
}

/// The value isn't encoded, and the sink keeps what it had.
fn is_refused(value: &dyn Encode, part: Unsupported) {
    let mut sink = vec![1, 2, 3];
    assert_eq!(value.try_encode(&mut sink), Err(Error::Unsupported(part)));
    let message = catch_unwind(AssertUnwindSafe(|| value.encode(&mut sink))).unwrap_err();
    assert_eq!(message.downcast_ref::<String>(), Some(&format!("not supported: {part}")));
    assert_eq!(sink, [1, 2, 3]);
}

#[test]
fn values() {
    let any = RefType::new_abstract(AbstractHeapType::Any, true, true);
    let values: [(&dyn Encode, Unsupported); 19] = [
        (&AbstractHeapType::Cont, Continuation),
        (&AbstractHeapType::NoCont, Continuation),
        (&HeapType::CONT, Continuation),
        (&HeapType::NO_CONT, Continuation),
        (&SHARED, SharedHeapType),
        (&HeapType::Exact(0), ExactReference),
        (&RefType::CONTREF, Continuation),
        (&any, SharedHeapType),
        (&EXACT, ExactReference),
        (&StorageType::Val(EXACT), ExactReference),
        (&FIELD, Continuation),
        (&FuncType::new([ValType::I32, EXACT], []), ExactReference),
        (&FuncType::new([], [EXACT]), ExactReference),
        (&ArrayType(FIELD), Continuation),
        (&StructType { fields: [FIELD].into() }, Continuation),
        (&CompositeInnerType::Cont(ContType(0)), Continuation),
        (&structure(), Continuation),
        (&subtype(false, None, CompositeInnerType::Cont(ContType(0))), Continuation),
        (&[Some(&EXACT)].as_slice(), ExactReference),
    ];
    values.into_iter().for_each(|(value, part)| is_refused(value, part));
    for (composite_type, part) in extended() {
        is_refused(&composite_type, part);
        is_refused(&SubType { is_final: true, supertype_idx: None, composite_type }, part);
    }
}

/// The properties of a composite type besides its kind, one by one.
fn extended() -> [(CompositeType, Unsupported); 3] {
    let plain = subtype(true, None, function()).composite_type;
    [
        (CompositeType { shared: true, ..plain.clone() }, SharedType),
        (CompositeType { descriptor: Some(0), ..plain.clone() }, Descriptor),
        (CompositeType { describes: Some(0), ..plain }, Describes),
    ]
}

fn entities() -> [(EntityType, Unsupported); 7] {
    let table = |heap_type, shared| TableType {
        element_type: RefType { nullable: true, heap_type },
        table64: false,
        minimum: 0,
        maximum: None,
        shared,
    };
    let paged = |log| MemoryType {
        minimum: 0,
        maximum: None,
        memory64: false,
        shared: false,
        page_size_log2: Some(log),
    };
    let global = |val_type, shared| GlobalType { val_type, mutable: false, shared };
    [
        (EntityType::FunctionExact(0), ExactFunction),
        (table(HeapType::FUNC, true).into(), SharedTable),
        (table(SHARED, false).into(), SharedHeapType),
        (paged(0).into(), PageSize),
        (paged(16).into(), PageSize),
        (global(ValType::I32, true).into(), SharedGlobal),
        (global(EXACT, false).into(), ExactReference),
    ]
}

#[test]
fn types_of_entities() {
    let mut ty = ModuleType::new();
    ty.export("f", EntityType::Function(0));
    for (entity, part) in entities() {
        is_refused(&entity, part);
        match entity {
            EntityType::Table(ty) => is_refused(&ty, part),
            EntityType::Memory(ty) => is_refused(&ty, part),
            EntityType::Global(ty) => is_refused(&ty, part),
            _ => {}
        }
        let error = Some(Error::Unsupported(part));
        assert_eq!(ty.try_import("m", "n", entity).err(), error);
        assert_eq!(ty.try_export("n", entity).err(), error);
        assert!(ty.is_finished());
    }
    assert_eq!(encoded(&ty), b"\x50\x01\x03\x01f\0\0");
}

/// The call fails with each parent, which is then unfinished, and writes nothing.
fn refuses(part: Unsupported, write: fn(CoreTypeEncoder<'_>) -> Result<(), Error>) {
    let mut section = CoreTypeSection::new();
    let (mut component, mut instance) = (ComponentType::new(), InstanceType::new());
    let (mut module, mut builder) = (ModuleType::new(), ComponentBuilder::default());
    let answers = [
        write(section.ty().core()),
        write(component.core_type().core()),
        write(instance.core_type().core()),
        write(module.ty()),
        write(builder.core_type(None).1.core()),
    ];
    assert_eq!(answers, [Err(Error::Unsupported(part)); 5]);
    assert!(section.discard_unfinished() && component.discard_unfinished());
    assert!(instance.discard_unfinished() && module.discard_unfinished());
    assert!(builder.discard_unfinished());
    section.ty().core().struct_([]);
    builder.core_type(None).1.core().struct_([]);
    assert_eq!(encoded(&section), [0x03, 0x01, 0x5f, 0x00]);
    assert_eq!([encoded(&component), encoded(&instance)], [[0x41, 0x00], [0x42, 0x00]]);
    assert_eq!(encoded(&module), [0x50, 0x00]);
    assert_eq!(builder.finish()[8..], [0x03, 0x03, 0x01, 0x5f, 0x00]);
}

#[test]
fn encoders() {
    refuses(ExactReference, |encoder| encoder.try_function([ValType::I32, EXACT], []));
    refuses(ExactReference, |encoder| encoder.try_function([ValType::I32], [EXACT]));
    refuses(ExactReference, |encoder| {
        let last_of_ten = (0..10).map(|i| if i == 9 { EXACT } else { ValType::I32 });
        encoder.try_function(last_of_ten, [])
    });
    refuses(ExactReference, |encoder| {
        encoder.try_func_type(&FuncType::new([], [ValType::I32, EXACT]))
    });
    refuses(Continuation, |encoder| encoder.try_array(&FIELD.element_type, false));
    refuses(Continuation, |encoder| encoder.try_struct([field(StorageType::I8, false), FIELD]));
    refuses(Continuation, |encoder| encoder.try_cont(&ContType(0)));
    refuses(Continuation, |encoder| encoder.try_subtype(&subtype(false, None, structure())));
    refuses(SharedType, |encoder| {
        let [(composite_type, _), ..] = extended();
        let second = SubType { is_final: true, supertype_idx: None, composite_type };
        encoder.try_rec([subtype(true, None, function()), second])
    });
}

#[test]
fn default_values() {
    assert!(ValType::I32.is_defaultable() && ValType::FUNCREF.is_defaultable());
    let never_null = ValType::Ref(RefType::EXNREF.nullable(false));
    assert!(!never_null.is_defaultable());
    assert!(StorageType::I8.is_defaultable());
    assert!(!StorageType::Val(never_null).is_defaultable());
    assert_eq!(RefType::new_abstract(AbstractHeapType::Func, true, false), RefType::FUNCREF);
    assert_eq!(encoded(&ValType::EXNREF), [0x63, 0x69]);
}

/// Types of slots and of representations.
#[test]
fn other_calls() {
    let error = Error::Unsupported(ExactReference);
    let mut b = ComponentBuilder::default();
    assert_eq!(b.try_context_get(EXACT, 0), Err(error));
    assert_eq!(b.try_context_set(EXACT, 0), Err(error));
    assert_eq!(b.try_type_resource(None, EXACT, None), Err(error));
    assert_eq!(b.finish(), Component::HEADER);

    let mut functions = CanonicalFunctionSection::new();
    assert_eq!(functions.try_context_get(EXACT, 0).err(), Some(error));
    assert_eq!(functions.try_context_set(EXACT, 0).err(), Some(error));
    assert_eq!(encoded(&functions), [0x01, 0x00]);

    let mut types = ComponentTypeSection::new();
    assert_eq!(types.try_resource(EXACT, None).err(), Some(error));
    assert_eq!((types.is_finished(), types.len()), (true, 0));
    assert_eq!(types.ty().try_resource(EXACT, None), Err(error));
    assert!(types.discard_unfinished());
    assert_eq!(encoded(&types), [0x01, 0x00]);
}
