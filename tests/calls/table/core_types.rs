//! Core types: of functions, structs and arrays, recursion groups, and types of core modules.

use crate::bytes;
use crate::call::{Build, Call, Declare, Done, Of, Seen, here};
use crate::refuse::calmly;
use crate::size::{Size, times};
use wenc::tree::{
    Command, CoreEntityType, CoreSubType, CoreTypeTree, GroupTree, ModuleDecl, Scope, Space,
};
use wenc::*;

/// Each type of values in turn: numbers, references to indices, and to each abstract type.
fn value(a: &Size, at: usize) -> ValType {
    let reference = |nullable, heap_type| ValType::Ref(RefType { nullable, heap_type });
    match at % 8 {
        0 => ValType::I32,
        1 => reference(true, HeapType::Concrete(a.index)),
        2 => ValType::I64,
        3 => reference(false, HeapType::Concrete(a.second)),
        4 => ValType::F32,
        5 => ValType::F64,
        6 => ValType::V128,
        _ => {
            let ty = ABSTRACT[at / 16 % ABSTRACT.len()];
            reference(at / 8 % 2 == 0, HeapType::Abstract { shared: false, ty })
        }
    }
}

const ABSTRACT: [AbstractHeapType; 12] = [
    AbstractHeapType::Func,
    AbstractHeapType::Extern,
    AbstractHeapType::Any,
    AbstractHeapType::None,
    AbstractHeapType::NoExtern,
    AbstractHeapType::NoFunc,
    AbstractHeapType::Eq,
    AbstractHeapType::Struct,
    AbstractHeapType::Array,
    AbstractHeapType::I31,
    AbstractHeapType::Exn,
    AbstractHeapType::NoExn,
];

fn field(a: &Size, at: usize) -> FieldType {
    let element_type = match at % 3 {
        0 => StorageType::I8,
        1 => StorageType::I16,
        _ => StorageType::Val(value(a, at / 3)),
    };
    FieldType { element_type, mutable: at % 2 == 0 }
}

pub fn subtype(is_final: bool, supertype_idx: Option<u32>, inner: CompositeInnerType) -> SubType {
    let composite_type = CompositeType { inner, shared: false, descriptor: None, describes: None };
    SubType { is_final, supertype_idx, composite_type }
}

fn values(a: &Size, from: usize) -> Vec<ValType> {
    (0..a.count).map(|at| value(a, at + from)).collect()
}

fn func_type(a: &Size) -> FuncType {
    FuncType::new(values(a, 0), values(a, 1))
}

fn function(a: &Size) -> CompositeInnerType {
    CompositeInnerType::Func(func_type(a))
}

fn results(a: &Size) -> CompositeInnerType {
    CompositeInnerType::Func(FuncType::new([], values(a, 1)))
}

fn structure(a: &Size) -> CompositeInnerType {
    let fields = (0..a.count).map(|at| field(a, at)).collect();
    CompositeInnerType::Struct(StructType { fields })
}

fn element(a: &Size) -> FieldType {
    FieldType { mutable: a.flag, ..field(a, a.index as usize) }
}

fn array(a: &Size) -> CompositeInnerType {
    CompositeInnerType::Array(ArrayType(element(a)))
}

/// A type of a group: some have supertypes, and some are final.
fn member(a: &Size, at: usize) -> SubType {
    let inner = CompositeInnerType::Array(ArrayType(field(a, at)));
    subtype(at % 2 == 0, (at % 3 > 0).then_some(a.at(at)), inner)
}

/// A core type or a group of them, and the call that writes it.
struct Shape {
    name: &'static str,
    is_group: bool,
    types: fn(&Size) -> Vec<SubType>,
    write: fn(CoreTypeEncoder<'_>, &Size) -> Done,
}

/// Types by themselves, then a group.
macro_rules! shapes {
    ($($name:literal |$ty:ident, $a:ident| $subtype:expr, $write:expr;)*) => {
        [$(Shape {
            name: $name,
            is_group: false,
            types: |$a| vec![$subtype],
            write: |$ty, $a| $write,
        },)* Shape {
            name: "recursion group",
            is_group: true,
            types: |a| (0..a.count).map(|at| member(a, at)).collect(),
            write: |ty, a| ty.try_rec(a.list(|at| calmly(|| member(a, at)))),
        }]
    };
}

static SHAPES: [Shape; 9] = shapes! {
    "core function" |ty, a| subtype(true, None, function(a)),
        ty.try_function(a.list(|at| value(a, at)), a.list(|at| value(a, at + 1)));
    "core function without parameters" |ty, a| subtype(true, None, results(a)),
        ty.try_function([], a.list(|at| value(a, at + 1)));
    "core function as a value" |ty, a| subtype(true, None, function(a)),
        ty.try_func_type(&calmly(|| func_type(a)));
    "struct" |ty, a| subtype(true, None, structure(a)), ty.try_struct(a.list(|at| field(a, at)));
    "array" |ty, a| subtype(true, None, array(a)), ty.try_array(&element(a).element_type, a.flag);
    "open function" |ty, a| subtype(false, None, function(a)),
        ty.try_subtype(&calmly(|| subtype(false, None, function(a))));
    "subtype" |ty, a| subtype(false, Some(a.second), structure(a)),
        ty.try_subtype(&calmly(|| subtype(false, Some(a.second), structure(a))));
    "final subtype" |ty, a| subtype(true, Some(a.index), array(a)),
        ty.try_subtype(&calmly(|| subtype(true, Some(a.index), array(a))));
};

impl Shape {
    fn tree(&self, a: &Size) -> GroupTree {
        let types = (self.types)(a);
        let tree = |ty: &SubType| {
            let tree = CoreSubType::try_from(ty).expect("it is supported");
            assert!(SubType::from(&tree) == *ty, "{}", self.name);
            tree
        };
        if self.is_group {
            GroupTree::Rec(types.iter().map(tree).collect())
        } else {
            GroupTree::Sub(tree(&types[0]))
        }
    }

    fn bytes(&self, a: &Size) -> Vec<u8> {
        let mut types = (self.types)(a).into_iter().map(|ty| bytes![ty]);
        if self.is_group {
            bytes![0x4e, crate::format::list(types)]
        } else {
            types.next().expect("a type")
        }
    }

    /// The indices of core types.
    fn seen(&self, a: &Size) -> Vec<u32> {
        (self.types)(a).iter().flat_map(seen_in).collect()
    }
}

fn seen_in(ty: &SubType) -> Vec<u32> {
    let stored = |field: &FieldType| match field.element_type {
        StorageType::Val(ty) => seen_in_value(&ty),
        _ => None,
    };
    let mut seen = Vec::from_iter(ty.supertype_idx);
    match &ty.composite_type.inner {
        CompositeInnerType::Func(ty) => {
            seen.extend(ty.params().iter().chain(ty.results()).filter_map(seen_in_value));
        }
        CompositeInnerType::Struct(ty) => seen.extend(ty.fields.iter().filter_map(stored)),
        CompositeInnerType::Array(ty) => seen.extend(stored(&ty.0)),
        CompositeInnerType::Cont(_) => unreachable!("it isn't supported"),
    }
    seen
}

fn seen_in_value(ty: &ValType) -> Option<u32> {
    match ty {
        ValType::Ref(RefType { heap_type: HeapType::Concrete(index), .. }) => Some(*index),
        _ => None,
    }
}

/// A core type in each parent of its encoder, and given as a value.
fn row(
    name: String,
    write: impl Fn(ComponentCoreTypeEncoder<'_>, &Size) -> Done + Copy + 'static,
    tree: impl Fn(&Size) -> CoreTypeTree + Copy + 'static,
    indices: impl Fn(&Size) -> Vec<Seen> + 'static,
    bytes: impl Fn(&Size) -> Vec<u8> + 'static,
    members: Vec<(Of<Vec<u8>>, Declare)>,
) -> Call {
    let as_tree =
        move |ty: ComponentCoreTypeEncoder<'_>, a: &Size| ty.try_tree(&calmly(|| tree(a)));
    let build: Build = Box::new(move |b, name, a| {
        let (index, ty) = b.try_core_type(name)?;
        write(ty, a).map(|()| index)
    });
    let command = move |debug_name, a: &Size| Command::CoreType { debug_name, ty: tree(a).into() };
    let space = Some(Space::CoreTypes);
    Call {
        hands: vec![
            Box::new(move |hand, a| write(hand.core_types.try_ty()?, a)),
            Box::new(move |hand, a| as_tree(hand.core_types.try_ty()?, a)),
        ],
        declares: vec![
            (0x00, Box::new(move |types, a| write(types.component.try_core_type()?, a))),
            (0x00, Box::new(move |types, a| write(types.instance.try_core_type()?, a))),
            (0x00, Box::new(move |types, a| as_tree(types.component.try_core_type()?, a))),
        ],
        members,
        ..Call::new(name, (3, space, 1), vec![build], command, indices, bytes)
    }
}

/// A type that begins as a module type does has a prefix where module types may stand.
fn guarded(bytes: Vec<u8>) -> Vec<u8> {
    if bytes[0] == 0x50 { bytes![0x00, bytes] } else { bytes }
}

fn of_shape(shape: &'static Shape) -> Call {
    let declare: Declare = Box::new(|types, a| (shape.write)(types.module.try_ty()?, a));
    let as_tree: Declare = Box::new(|types, a| {
        let tree = calmly(|| shape.tree(a));
        types.module.try_ty()?.try_tree(&tree)
    });
    let member =
        |declare| (Box::new(|a: &Size| bytes![0x01, shape.bytes(a)]) as Of<Vec<u8>>, declare);
    row(
        shape.name.into(),
        |ty, a| (shape.write)(ty.core(), a),
        |a| CoreTypeTree::Group(shape.tree(a)),
        |a| shape.seen(a).into_iter().map(|index| here(Space::CoreTypes, index)).collect(),
        |a| guarded(shape.bytes(a)),
        [declare, as_tree].map(member).into(),
    )
}

/// What a module type declares.
enum Declaration {
    Import(fn(&Size) -> EntityType),
    Export(fn(&Size) -> EntityType),
    Alias,
    /// An alias of a type of the module type itself, by the call that returns the index.
    OwnAlias,
    Type(&'static Shape),
}

impl Declaration {
    fn declare(&self, ty: &mut ModuleType, a: &Size) -> Done {
        match self {
            Self::Import(entity) => ty.try_import(&a.text, &a.other, entity(a)).map(|_| ()),
            Self::Export(entity) => ty.try_export(&a.text, entity(a)).map(|_| ()),
            Self::Alias => ty.try_alias_outer_core_type(a.index, a.second).map(|_| ()),
            Self::OwnAlias => {
                let wanted = ty.type_count();
                ty.try_alias_core_type(0, a.index).map(|index| assert_eq!(index, wanted))
            }
            Self::Type(shape) => (shape.write)(ty.try_ty()?, a),
        }
    }

    fn tree(&self, a: &Size) -> ModuleDecl {
        let text = a.text.clone();
        match self {
            Self::Import(of) => {
                ModuleDecl::Import { module: text, name: a.other.clone(), ty: entity_tree(of(a)) }
            }
            Self::Export(of) => ModuleDecl::Export { name: text, ty: entity_tree(of(a)) },
            Self::Alias => ModuleDecl::Alias { count: a.index, index: a.second },
            Self::OwnAlias => ModuleDecl::Alias { count: 0, index: a.index },
            Self::Type(shape) => ModuleDecl::Type(shape.tree(a)),
        }
    }

    fn bytes(&self, a: &Size) -> Vec<u8> {
        match self {
            Self::Import(of) => bytes![0x00, a.text.as_str(), a.other.as_str(), of(a)],
            Self::Export(of) => bytes![0x03, a.text.as_str(), of(a)],
            Self::Alias => bytes![0x02, 0x10, 0x01, a.index, a.second],
            Self::OwnAlias => bytes![0x02, 0x10, 0x01, 0_u32, a.index],
            Self::Type(shape) => bytes![0x01, shape.bytes(a)],
        }
    }

    fn seen(&self, a: &Size) -> Vec<Seen> {
        match self {
            Self::Import(of) | Self::Export(of) => seen_in_entity(of(a)),
            Self::Alias => vec![outer(a.index, a.second)],
            Self::OwnAlias => vec![outer(0, a.index)],
            Self::Type(shape) => shape.seen(a).into_iter().map(inside).collect(),
        }
    }
}

/// The row of a module type with the declaration.
fn of_module((name, of): &'static (&str, Declaration)) -> Call {
    let times = |a: &Size| times(a, &of.bytes(a));
    let make = move |a: &Size| {
        calmly(|| {
            let mut ty = ModuleType::new();
            (0..times(a)).for_each(|_| of.declare(&mut ty, a).expect("there is memory"));
            ty
        })
    };
    let declare: Declare = Box::new(|types, a| of.declare(&mut types.module, a));
    row(
        format!("module type with {name}"),
        move |ty, a| ty.try_module(&make(a)),
        move |a| CoreTypeTree::Module((0..times(a)).map(|_| of.tree(a)).collect()),
        move |a| of.seen(a).repeat(times(a)),
        move |a| bytes![0x50, crate::format::list(vec![of.bytes(a); times(a)].into_iter())],
        vec![(Box::new(|a| of.bytes(a)), declare)],
    )
}

fn inside(index: u32) -> Seen {
    (Space::CoreTypes, Scope::Type(1), index)
}

fn limits(a: &Size) -> (u64, u64) {
    (u64::from(a.index) << 12, u64::from(a.second) << 20)
}

fn table(a: &Size, maximum: bool, table64: bool) -> EntityType {
    let (minimum, most) = limits(a);
    let heap_type = HeapType::Concrete(a.second);
    let element_type = RefType { nullable: a.flag, heap_type };
    let maximum = maximum.then_some(most);
    EntityType::Table(TableType { element_type, table64, minimum, maximum, shared: false })
}

fn memory(a: &Size, maximum: bool, memory64: bool, shared: bool) -> EntityType {
    let (minimum, most) = limits(a);
    let maximum = maximum.then_some(most);
    EntityType::Memory(MemoryType { minimum, maximum, memory64, shared, page_size_log2: None })
}

fn global(a: &Size) -> EntityType {
    let val_type = value(a, a.second as usize);
    EntityType::Global(GlobalType { val_type, mutable: a.flag, shared: false })
}

fn tag(a: &Size) -> EntityType {
    EntityType::Tag(TagType { kind: TagKind::Exception, func_type_idx: a.index })
}

fn seen_in_entity(ty: EntityType) -> Vec<Seen> {
    let index = match ty {
        EntityType::Function(index) => Some(index),
        EntityType::Table(ty) => seen_in_value(&ValType::Ref(ty.element_type)),
        EntityType::Global(ty) => seen_in_value(&ty.val_type),
        EntityType::Tag(ty) => Some(ty.func_type_idx),
        _ => None,
    };
    index.map(inside).into_iter().collect()
}

fn entity_tree(ty: EntityType) -> CoreEntityType {
    let tree = ty.try_into().expect("it is supported");
    assert_eq!(EntityType::from(tree), ty);
    tree
}

/// The index that an outer alias has: in the module type itself, or outside of it.
fn outer(count: u32, index: u32) -> Seen {
    let scope = count.checked_sub(1).map_or(Scope::Type(1), Scope::Component);
    (Space::CoreTypes, scope, index)
}

/// Imports and exports of each kind, then the other declarations.
macro_rules! declarations {
    ($($name:literal |$a:ident| $entity:expr;)*) => {
        [
            $(
                (concat!("an import of ", $name), Declaration::Import(|$a| $entity)),
                (concat!("an export of ", $name), Declaration::Export(|$a| $entity)),
            )*
            ("an alias", Declaration::Alias),
            ("an alias of itself", Declaration::OwnAlias),
            ("a subtype", Declaration::Type(&SHAPES[6])),
            ("a recursion group", Declaration::Type(&SHAPES[8])),
        ]
    };
}

static DECLARATIONS: [(&str, Declaration); 22] = declarations! {
    "a function" |a| EntityType::Function(a.index);
    "a table" |a| table(a, false, false);
    "a table with a maximum" |a| table(a, true, true);
    "a memory" |a| memory(a, false, false, false);
    "a memory with a maximum" |a| memory(a, true, true, false);
    "a shared memory" |a| memory(a, true, false, true);
    "a memory of 64 bits" |a| memory(a, false, true, false);
    "a global" |a| global(a);
    "a tag" |a| tag(a);
};

pub fn calls() -> Vec<Call> {
    SHAPES.iter().map(of_shape).chain(DECLARATIONS.iter().map(of_module)).collect()
}
