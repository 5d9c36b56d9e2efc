//! Core types of another crate, as those of this one.

use std::fmt::Debug;
use wasm_encoder::*;

/// Types of the names, variants and fields that `wasm_encoder` has, which print as those.
mod wasm_encoder {
    macro_rules! types {
        ($($item:item)*) => {$(
            #[derive(Clone, Debug)]
            $item
        )*};
    }

    types! {
        pub enum ExportKind {
            Func,
            Table,
            Memory,
            Global,
            Tag,
            FuncExact,
        }

        pub enum EntityType {
            Function(u32),
            Table(TableType),
            Memory(MemoryType),
            Global(GlobalType),
            Tag(TagType),
            FunctionExact(u32),
        }

        pub struct TableType {
            pub element_type: RefType,
            pub table64: bool,
            pub minimum: u64,
            pub maximum: Option<u64>,
            pub shared: bool,
        }

        pub struct MemoryType {
            pub minimum: u64,
            pub maximum: Option<u64>,
            pub memory64: bool,
            pub shared: bool,
            pub page_size_log2: Option<u32>,
        }

        pub struct GlobalType {
            pub val_type: ValType,
            pub mutable: bool,
            pub shared: bool,
        }

        pub enum TagKind {
            Exception,
        }

        pub struct TagType {
            pub kind: TagKind,
            pub func_type_idx: u32,
        }

        pub enum ValType {
            I32,
            I64,
            F32,
            F64,
            V128,
            Ref(RefType),
        }

        pub struct RefType {
            pub nullable: bool,
            pub heap_type: HeapType,
        }

        pub enum HeapType {
            Abstract { shared: bool, ty: AbstractHeapType },
            Concrete(u32),
            Exact(u32),
        }

        pub enum AbstractHeapType {
            Func,
            Extern,
            Any,
            None,
            NoExtern,
            NoFunc,
            Eq,
            Struct,
            Array,
            I31,
            Exn,
            NoExn,
            Cont,
            NoCont,
        }

        pub enum StorageType {
            I8,
            I16,
            Val(ValType),
        }

        pub struct FieldType {
            pub element_type: StorageType,
            pub mutable: bool,
        }

        pub struct FuncType {
            pub values: Vec<ValType>,
            pub params: usize,
        }

        pub struct ArrayType(pub FieldType);

        pub struct StructType {
            pub fields: Box<[FieldType]>,
        }

        pub struct ContType(pub u32);

        pub enum CompositeInnerType {
            Func(FuncType),
            Array(ArrayType),
            Struct(StructType),
            Cont(ContType),
        }

        pub struct CompositeType {
            pub inner: CompositeInnerType,
            pub shared: bool,
            pub descriptor: Option<u32>,
            pub describes: Option<u32>,
        }

        pub struct SubType {
            pub is_final: bool,
            pub supertype_idx: Option<u32>,
            pub composite_type: CompositeType,
        }
    }

    impl FuncType {
        pub fn params(&self) -> &[ValType] {
            &self.values[..self.params]
        }

        pub fn results(&self) -> &[ValType] {
            &self.values[self.params..]
        }
    }
}

wenc::core_types_of!(wasm_encoder);

/// The value becomes one that prints the same.
#[track_caller]
fn is_same<T: IntoWenc<Output: Debug> + Debug>(value: T) {
    let printed = format!("{value:?}");
    assert_eq!(format!("{:?}", value.into_wenc()), printed);
}

#[test]
fn kinds() {
    use ExportKind::*;
    [Func, Table, Memory, Global, Tag].into_iter().for_each(is_same);
    let _: wenc::ExportKind = Tag.into_wenc();
}

#[test]
#[should_panic(expected = "no component has an export of this kind")]
fn other_kinds_panic() {
    ExportKind::FuncExact.into_wenc();
}

const ABSTRACT: [AbstractHeapType; 14] = {
    use AbstractHeapType::*;
    [Func, Extern, Any, None, NoExtern, NoFunc, Eq, Struct, Array, I31, Exn, NoExn, Cont, NoCont]
};

fn reference(nullable: bool, heap_type: HeapType) -> RefType {
    RefType { nullable, heap_type }
}

/// Types of values, some by each heap type.
fn values() -> Vec<ValType> {
    let of = ABSTRACT.into_iter().flat_map(|ty| {
        [false, true]
            .map(|shared| reference(!shared, HeapType::Abstract { shared, ty: ty.clone() }))
    });
    let others = [reference(true, HeapType::Concrete(64)), reference(false, HeapType::Exact(7))];
    let plain = [ValType::I32, ValType::I64, ValType::F32, ValType::F64, ValType::V128];
    plain.into_iter().chain(of.chain(others).map(ValType::Ref)).collect()
}

#[test]
fn types_of_values() {
    values().into_iter().for_each(is_same);
    ABSTRACT.into_iter().for_each(is_same);
    for mutable in [false, true] {
        for element_type in [StorageType::I8, StorageType::I16, StorageType::Val(ValType::I64)] {
            is_same(FieldType { element_type, mutable });
        }
    }
}

#[test]
fn entities() {
    for flag in [false, true] {
        let (shared, maximum) = (!flag, flag.then_some(128));
        is_same(EntityType::Table(TableType {
            element_type: reference(flag, HeapType::Concrete(3)),
            table64: flag,
            minimum: 1,
            maximum,
            shared,
        }));
        is_same(EntityType::Memory(MemoryType {
            minimum: 2,
            maximum,
            memory64: flag,
            shared,
            page_size_log2: flag.then_some(3),
        }));
        is_same(EntityType::Global(GlobalType { val_type: ValType::I64, mutable: flag, shared }));
    }
    is_same(EntityType::Tag(TagType { kind: TagKind::Exception, func_type_idx: 130 }));
    is_same(EntityType::Function(300));
    is_same(EntityType::FunctionExact(3));
}

#[test]
fn composites() {
    let field = |mutable| FieldType { element_type: StorageType::I8, mutable };
    for (at, inner) in [
        CompositeInnerType::Func(FuncType { values: values(), params: 3 }),
        CompositeInnerType::Array(ArrayType(field(true))),
        CompositeInnerType::Struct(StructType { fields: [field(false), field(true)].into() }),
        CompositeInnerType::Cont(ContType(9)),
    ]
    .into_iter()
    .enumerate()
    {
        let [one, two] = [1, 2].map(|bit| at & bit == 0);
        let (descriptor, describes) = (one.then_some(1), two.then_some(2));
        let composite_type = CompositeType { inner, shared: one, descriptor, describes };
        is_same(SubType { is_final: two, supertype_idx: one.then_some(4), composite_type });
    }
}
