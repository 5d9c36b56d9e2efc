//! The values of the header's enumerations. Each list is in the order of the header.

use crate::arguments::Entity;
use wenc::tree::{
    CoreAbstractHeapType, CoreEntityType, CoreFieldType, CoreGlobalType, CoreHeapType,
    CoreMemoryType, CoreRefType, CoreStorageType, CoreTableType, CoreTagType, CoreValType, Scope,
    Space,
};
use wenc::{
    Alias, CanonicalOption, ComponentExportKind, ComponentOuterAliasKind, ComponentSectionId,
    ComponentTypeRef, ComponentValType, ExportKind, PrimitiveValType, TypeBounds,
};

/// `enum wenc_primitive`, from 1 on.
const PRIMITIVES: [PrimitiveValType; 14] = {
    use PrimitiveValType::*;
    [Bool, S8, U8, S16, U16, S32, U32, S64, U64, F32, F64, Char, String, ErrorContext]
};

/// `enum wenc_kind`.
const KINDS: [ComponentExportKind; 6] = {
    use ComponentExportKind::*;
    [Module, Func, Value, Type, Component, Instance]
};

/// `enum wenc_core_kind`.
const CORE_KINDS: [ExportKind; 5] =
    [ExportKind::Func, ExportKind::Table, ExportKind::Memory, ExportKind::Global, ExportKind::Tag];

/// `enum wenc_outer_kind`.
const OUTER_KINDS: [ComponentOuterAliasKind; 4] = {
    use ComponentOuterAliasKind::*;
    [CoreModule, CoreType, Type, Component]
};

/// `enum wenc_core_type`, from 1 on: the numbers.
const NUMBERS: [CoreValType; 5] =
    [CoreValType::I32, CoreValType::I64, CoreValType::F32, CoreValType::F64, CoreValType::V128];

/// `enum wenc_core_type`, after those: the heap types of references.
const HEAP_TYPES: [CoreAbstractHeapType; 12] = {
    use CoreAbstractHeapType::*;
    [Func, Extern, Any, None, NoExtern, NoFunc, Eq, Struct, Array, I31, Exn, NoExn]
};

/// `enum wenc_core_type`, after those: a core type by its index, and the packed types.
const CONCRETE: u32 = 18;
const I8: u32 = 19;
const I16: u32 = 20;

/// The flags that are added to a number of `enum wenc_core_type`.
const NULLABLE: u32 = 0x100;
const MUTABLE: u32 = 0x200;

fn nth<T: Copy>(all: &[T], number: u32) -> Option<T> {
    all.get(usize::try_from(number).ok()?).copied()
}

/// Returns the position of a value in a list.
fn number_in<T: PartialEq>(all: &[T], value: &T) -> u32 {
    (0..).zip(all).find(|(_, one)| *one == value).map_or(u32::MAX, |(number, _)| number)
}

pub fn primitive(number: u32) -> Option<PrimitiveValType> {
    nth(&PRIMITIVES, number.checked_sub(1)?)
}

/// Defines the value of a number in a list, and the number of a value.
macro_rules! lists {
    ($($of_number:ident, $of_value:ident: $ty:ty = $list:expr;)*) => {$(
        pub fn $of_number(number: u32) -> Option<$ty> {
            nth(&$list, number)
        }

        pub fn $of_value(value: $ty) -> u32 {
            number_in(&$list, &value)
        }
    )*};
}

lists! {
    kind, of_kind: ComponentExportKind = KINDS;
    core_kind, of_core_kind: ExportKind = CORE_KINDS;
    outer_kind, of_outer_kind: ComponentOuterAliasKind = OUTER_KINDS;
    space, of_space: Space = Space::ALL;
}

pub fn section(number: u32) -> Option<ComponentSectionId> {
    nth(&ComponentSectionId::ALL, number)
}

/// The number of index spaces, for items without one.
pub const NO_SPACE: u32 = Space::ALL.len() as u32;

/// `enum wenc_scope`, and the distance of the scope, `out`.
pub fn of_scope(scope: Scope) -> (u32, u32) {
    match scope {
        Scope::Component(out) => (0, out),
        Scope::Type(depth) => (1, depth),
    }
}

/// Returns the number of an alias in `enum wenc_alias`.
pub fn of_alias(alias: &Alias<'_>) -> u32 {
    match alias {
        Alias::InstanceExport { .. } => 1,
        Alias::CoreInstanceExport { .. } => 2,
        Alias::Outer { .. } => 3,
    }
}

/// Returns a type in `enum wenc_ref`, and its `of`.
pub fn of_type_ref(ty: ComponentTypeRef) -> (u32, u32) {
    match ty {
        ComponentTypeRef::Module(of) => (1, of),
        ComponentTypeRef::Func(of) => (2, of),
        ComponentTypeRef::Value(ComponentValType::Type(of)) => (3, of),
        ComponentTypeRef::Type(TypeBounds::Eq(of)) => (4, of),
        ComponentTypeRef::Component(of) => (5, of),
        ComponentTypeRef::Instance(of) => (6, of),
        ComponentTypeRef::Type(TypeBounds::SubResource) => (7, 0),
        ComponentTypeRef::Value(ComponentValType::Primitive(ty)) => {
            (8, number_in(&PRIMITIVES, &ty) + 1)
        }
    }
}

/// `enum wenc_ref`: a value type.
pub fn value(reference: u32, of: u32) -> Option<ComponentValType> {
    match reference {
        3 => Some(ComponentValType::Type(of)),
        8 => Some(ComponentValType::Primitive(primitive(of)?)),
        _ => None,
    }
}

/// `enum wenc_ref`: the type of an import, or the type ascribed to an export.
pub fn type_ref(reference: u32, of: u32) -> Option<ComponentTypeRef> {
    Some(match reference {
        1 => ComponentTypeRef::Module(of),
        2 => ComponentTypeRef::Func(of),
        4 => ComponentTypeRef::Type(TypeBounds::Eq(of)),
        5 => ComponentTypeRef::Component(of),
        6 => ComponentTypeRef::Instance(of),
        7 => ComponentTypeRef::Type(TypeBounds::SubResource),
        _ => ComponentTypeRef::Value(value(reference, of)?),
    })
}

/// `enum wenc_ref`: a value type, or none.
pub fn maybe_value(reference: u32, of: u32) -> Option<Option<ComponentValType>> {
    if reference == 0 { Some(None) } else { value(reference, of).map(Some) }
}

/// `enum wenc_ref`: the type ascribed to an export, or none.
pub fn maybe_type_ref(reference: u32, of: u32) -> Option<Option<ComponentTypeRef>> {
    if reference == 0 { Some(None) } else { type_ref(reference, of).map(Some) }
}

/// `enum wenc_option`.
pub fn option(number: u32, of: u32) -> Option<CanonicalOption> {
    Some(match number {
        0 => CanonicalOption::UTF8,
        1 => CanonicalOption::UTF16,
        2 => CanonicalOption::CompactUTF16,
        3 => CanonicalOption::Memory(of),
        4 => CanonicalOption::Realloc(of),
        5 => CanonicalOption::PostReturn(of),
        6 => CanonicalOption::Async,
        7 => CanonicalOption::Callback(of),
        8 => CanonicalOption::CoreType(of),
        9 => CanonicalOption::Gc,
        _ => return None,
    })
}

/// `enum wenc_core_type`: a reference type. A nullable one has [`NULLABLE`] added.
fn reference(number: u32, index: u32) -> Option<CoreRefType> {
    let nullable = number & NULLABLE != 0;
    let heap_type = match number & !NULLABLE {
        CONCRETE => CoreHeapType::Concrete(index),
        // A smaller number wraps to one past the end.
        number => CoreHeapType::Abstract(nth(&HEAP_TYPES, number.wrapping_sub(6))?),
    };
    Some(CoreRefType { nullable, heap_type })
}

/// `enum wenc_core_type`: a value type.
pub fn core_value(number: u32, index: u32) -> Option<CoreValType> {
    core_number(number).or_else(|| reference(number, index).map(CoreValType::Ref))
}

/// `enum wenc_core_type`: a number or vector type.
pub fn core_number(number: u32) -> Option<CoreValType> {
    nth(&NUMBERS, number.checked_sub(1)?)
}

/// `enum wenc_core_type`: the type of a field, or of the elements of an array. A mutable one has
/// [`MUTABLE`] added.
pub fn field(number: u32, index: u32) -> Option<CoreFieldType> {
    let mutable = number & MUTABLE != 0;
    let element_type = match number & !MUTABLE {
        I8 => CoreStorageType::I8,
        I16 => CoreStorageType::I16,
        number => CoreStorageType::Val(core_value(number, index)?),
    };
    Some(CoreFieldType { element_type, mutable })
}

/// Returns the type of an import or an export of a core module.
pub fn entity(entity: &Entity) -> Option<CoreEntityType> {
    let (minimum, maximum) =
        (entity.minimum, entity.has_maximum.is_set().then_some(entity.maximum));
    Some(match core_kind(entity.kind)? {
        ExportKind::Func => CoreEntityType::Function(entity.ty),
        ExportKind::Table => CoreEntityType::Table(CoreTableType {
            element_type: reference(entity.ty, entity.index)?,
            table64: entity.is_long.is_set(),
            minimum,
            maximum,
        }),
        ExportKind::Memory => CoreEntityType::Memory(CoreMemoryType {
            minimum,
            maximum,
            memory64: entity.is_long.is_set(),
            shared: entity.is_shared.is_set(),
        }),
        ExportKind::Global => CoreEntityType::Global(CoreGlobalType {
            val_type: core_value(entity.ty & !MUTABLE, entity.index)?,
            mutable: entity.ty & MUTABLE != 0,
        }),
        ExportKind::Tag => CoreEntityType::Tag(CoreTagType { func_type_idx: entity.ty }),
    })
}
