//! The header's numbers for values of Rust, stated independently of the library.

use wenc::tree::{
    CanonTree, CoreFieldType, CoreHeapType, CoreRefType, CoreStorageType, CoreValType,
};
use wenc::*;

/// Functions from a type of Rust to the numbers of its values.
macro_rules! numbers {
    ($($name:ident $of:ident { $($variant:ident $number:literal),* })*) => {$(
        pub fn $name(value: $of) -> u32 {
            match value {
                $($of::$variant => $number),*
            }
        }
    )*};
}

numbers! {
    primitive PrimitiveValType {
        Bool 1, S8 2, U8 3, S16 4, U16 5, S32 6, U32 7, S64 8, U64 9, F32 10, F64 11, Char 12,
        String 13, ErrorContext 14
    }
    kind ComponentExportKind { Module 0, Func 1, Value 2, Type 3, Component 4, Instance 5 }
    core_kind ExportKind { Func 0, Table 1, Memory 2, Global 3, Tag 4 }
    outer_kind ComponentOuterAliasKind { CoreModule 0, CoreType 1, Type 2, Component 3 }
}

pub fn value(ty: ComponentValType) -> (u32, u32) {
    match ty {
        ComponentValType::Type(index) => (3, index),
        ComponentValType::Primitive(ty) => (8, primitive(ty)),
    }
}

/// A number that isn't used.
pub fn maybe_value(ty: Option<ComponentValType>) -> (u32, u32) {
    ty.map_or((0, 99), value)
}

pub fn type_ref(ty: ComponentTypeRef) -> (u32, u32) {
    match ty {
        ComponentTypeRef::Module(index) => (1, index),
        ComponentTypeRef::Func(index) => (2, index),
        ComponentTypeRef::Value(ty) => value(ty),
        ComponentTypeRef::Type(TypeBounds::Eq(index)) => (4, index),
        ComponentTypeRef::Type(TypeBounds::SubResource) => (7, 99),
        ComponentTypeRef::Component(index) => (5, index),
        ComponentTypeRef::Instance(index) => (6, index),
    }
}

pub fn option(option: CanonicalOption) -> (u32, u32) {
    match option {
        CanonicalOption::UTF8 => (0, 88),
        CanonicalOption::UTF16 => (1, 88),
        CanonicalOption::CompactUTF16 => (2, 88),
        CanonicalOption::Memory(index) => (3, index),
        CanonicalOption::Realloc(index) => (4, index),
        CanonicalOption::PostReturn(index) => (5, index),
        CanonicalOption::Async => (6, 88),
        CanonicalOption::Callback(index) => (7, index),
        CanonicalOption::CoreType(index) => (8, index),
        CanonicalOption::Gc => (9, 88),
    }
}

pub fn core_value(ty: CoreValType) -> (u32, u32) {
    match ty {
        CoreValType::I32 => (1, 66),
        CoreValType::I64 => (2, 66),
        CoreValType::F32 => (3, 66),
        CoreValType::F64 => (4, 66),
        CoreValType::V128 => (5, 66),
        CoreValType::Ref(ty) => reference(ty),
    }
}

pub fn reference(CoreRefType { nullable, heap_type }: CoreRefType) -> (u32, u32) {
    use AbstractHeapType::*;
    let of = match heap_type {
        CoreHeapType::Concrete(index) => (18, index),
        CoreHeapType::Abstract(ty) => match ty.into() {
            Func => (6, 66),
            Extern => (7, 66),
            Any => (8, 66),
            AbstractHeapType::None => (9, 66),
            NoExtern => (10, 66),
            NoFunc => (11, 66),
            Eq => (12, 66),
            Struct => (13, 66),
            Array => (14, 66),
            I31 => (15, 66),
            Exn => (16, 66),
            NoExn => (17, 66),
            Cont | NoCont => unreachable!("it isn't supported"),
        },
    };
    (of.0 + if nullable { 256 } else { 0 }, of.1)
}

pub fn field(CoreFieldType { element_type, mutable }: CoreFieldType) -> (u32, u32) {
    let of = match element_type {
        CoreStorageType::I8 => (19, 66),
        CoreStorageType::I16 => (20, 66),
        CoreStorageType::Val(ty) => core_value(ty),
    };
    (of.0 + if mutable { 512 } else { 0 }, of.1)
}

/// The number of a builtin with options, its first argument, which it needn't take, and the
/// options.
pub fn builtin_with(canon: &CanonTree) -> Option<(u32, u32, &[CanonicalOption])> {
    use wenc::tree::CanonOf::*;
    Some(match canon {
        StreamRead { ty, options } => (1, *ty, options),
        StreamWrite { ty, options } => (2, *ty, options),
        FutureRead { ty, options } => (3, *ty, options),
        FutureWrite { ty, options } => (4, *ty, options),
        ErrorContextNew(options) => (5, 77, options),
        ErrorContextDebugMessage(options) => (6, 77, options),
        _ => return None,
    })
}

/// The number of a builtin, and its two arguments: one that it doesn't take is arbitrary.
macro_rules! builtins {
    ($($number:literal $name:ident $(($only:ident))? $({ $one:ident, $other:ident })?),*) => {
        pub fn builtin(canon: &CanonTree) -> Option<(u32, u32, u32)> {
            match *canon {
                $(CanonTree::$name $(($only))? $({ $one, $other })? => {
                    let given =
                        [$(u32::from($only),)? $(u32::from($one), u32::from($other),)? 77, 77];
                    Some(($number, given[0], given[1]))
                })*
                _ => None,
            }
        }
    };
}

builtins! {
    1 ResourceNew(ty), 2 ResourceDrop(ty), 3 ResourceRep(ty), 4 TaskCancel,
    5 SubtaskCancel(is_async), 6 ThreadYield, 7 SubtaskDrop, 8 StreamNew(ty),
    9 StreamCancelRead { ty, async_ }, 10 StreamCancelWrite { ty, async_ },
    11 StreamDropReadable(ty), 12 StreamDropWritable(ty), 13 FutureNew(ty),
    14 FutureCancelRead { ty, async_ }, 15 FutureCancelWrite { ty, async_ },
    16 FutureDropReadable(ty), 17 FutureDropWritable(ty), 18 ErrorContextDrop, 19 WaitableSetNew,
    20 WaitableSetWait(memory), 21 WaitableSetPoll(memory), 22 WaitableSetDrop, 23 WaitableJoin,
    24 BackpressureInc, 25 BackpressureDec, 26 ThreadIndex, 27 ThreadNewIndirect { ty, table },
    28 ThreadResumeLater, 29 ThreadSuspend, 30 ThreadSuspendThenResume, 31 ThreadYieldThenResume,
    32 ThreadSuspendThenPromote, 33 ThreadYieldThenPromote, 34 StreamForward(ty),
    35 FutureForward(ty), 36 ThreadSpawnRef(ty), 37 ThreadSpawnIndirect { ty, table },
    38 ThreadAvailableParallelism
}
