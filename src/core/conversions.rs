//! Conversions between the core types and those of the proved code and of trees.

use super::types::converted;
use super::{
    ArrayType, CompositeInnerType, CompositeType, EntityType, FieldType, FuncType, GlobalType,
    HeapType, MemoryType, RefType, StorageType, StructType, SubType, TableType, TagKind, TagType,
    ValType,
};
use crate::encode::encode;
use crate::proved::wasm_encoder as proved;
use crate::{Error, Unsupported};

/// Converts types whose variants or fields are those of the proved ones, except for unsupported
/// variants and field values.
macro_rules! supported {
    ($($kind:tt $name:ident $body:tt $(without [$($absent:tt)*])?;)*) => {
        $(supported! { @$kind $name $body [$($($absent)*)?] })*

        encode! {
            $($name, ty => proved::$name::try_from(*ty)?;)*
        }
    };
    (
        @enum $name:ident { $($variant:ident $(($inner:ident))?),* }
        [$($absent:pat => $why:ident)?]
    ) => {
        supported! { @both $name, ty => match ty {
            $($name::$variant $(($inner))? => Self::$variant $(($inner.try_into()?))?,)*
            $($absent => return Err(Error::Unsupported(Unsupported::$why)),)?
        }, match ty {
            $(proved::$name::$variant $(($inner))? => Self::$variant $(($inner.into()))?,)*
        } }
    };
    (@struct $name:ident { $($field:tt),* } [$($absent:ident: $none:expr => $why:ident)?]) => {
        supported! { @both $name, ty => {
            $(if ty.$absent != $none {
                return Err(Error::Unsupported(Unsupported::$why));
            })?
            Self { $($field: ty.$field.try_into()?),* }
        }, Self { $($field: ty.$field.into(),)* $($absent: $none)? } }
    };
    (@both $name:ident, $ty:ident => $checked:expr, $made:expr) => {
        /// Fails with [`Error::Unsupported`] if the type isn't in WebAssembly 3.0.
        impl TryFrom<$name> for proved::$name {
            type Error = Error;

            #[inline]
            fn try_from($ty: $name) -> Result<Self, Error> {
                Ok($checked)
            }
        }

        impl From<proved::$name> for $name {
            #[inline]
            fn from($ty: proved::$name) -> Self {
                $made
            }
        }
    };
}

pub(super) use supported;

supported! {
    enum ValType { I32, I64, F32, F64, V128, Ref(ty) };
    struct RefType { nullable, heap_type };
    enum StorageType { I8, I16, Val(ty) };
    struct FieldType { element_type, mutable };
    struct ArrayType { 0 };
    struct TableType { element_type, table64, minimum, maximum }
        without [shared: false => SharedTable];
    struct MemoryType { minimum, maximum, memory64, shared }
        without [page_size_log2: None => PageSize];
    struct GlobalType { val_type, mutable } without [shared: false => SharedGlobal];
    enum EntityType { Function(index), Table(ty), Memory(ty), Global(ty), Tag(ty) }
        without [EntityType::FunctionExact(_) => ExactFunction];
}

supported! {
    @both TagType, ty => {
        let TagKind::Exception = ty.kind;
        Self { func_type_idx: ty.func_type_idx }
    }, Self { kind: TagKind::Exception, func_type_idx: ty.func_type_idx }
}

/// Fails with [`Error::Unsupported`] if the type isn't in WebAssembly 3.0.
impl TryFrom<HeapType> for proved::HeapType {
    type Error = Error;

    #[inline]
    fn try_from(ty: HeapType) -> Result<Self, Error> {
        match ty {
            HeapType::Abstract { shared: false, ty } => Ok(Self::Abstract(ty.try_into()?)),
            HeapType::Concrete(index) => Ok(Self::Concrete(index)),
            HeapType::Abstract { shared: true, .. } => {
                Err(Error::Unsupported(Unsupported::SharedHeapType))
            }
            HeapType::Exact(_) => Err(Error::Unsupported(Unsupported::ExactReference)),
        }
    }
}

impl From<proved::HeapType> for HeapType {
    #[inline]
    fn from(ty: proved::HeapType) -> Self {
        match ty {
            proved::HeapType::Abstract(ty) => Self::Abstract { shared: false, ty: ty.into() },
            proved::HeapType::Concrete(index) => Self::Concrete(index),
        }
    }
}

/// Converts types that own a list, by reference.
macro_rules! borrowed {
    ($($name:ident to $proved:ident, $ty:ident => $checked:expr;)*) => {
        $(/// Fails with [`Error::Unsupported`] if the type isn't in WebAssembly 3.0.
        impl TryFrom<&$name> for proved::$proved {
            type Error = Error;

            #[inline]
            fn try_from($ty: &$name) -> Result<Self, Error> {
                $checked
            }
        })*

        encode! {
            $($name, ty => proved::$proved::try_from(ty)?;)*
        }
    };
}

borrowed! {
    FuncType to FuncType, ty => {
        let types = |types: &[ValType]| converted(types, |ty| (*ty).try_into());
        Ok(Self::from_lists(types(ty.params())?, types(ty.results())?))
    };
    StructType to StructType, ty => {
        Ok(Self { fields: converted(&ty.fields, |field| (*field).try_into())? })
    };
    CompositeType to CompositeType, ty => {
        let unsupported = match ty {
            CompositeType { shared: true, .. } => Unsupported::SharedType,
            CompositeType { descriptor: Some(_), .. } => Unsupported::Descriptor,
            CompositeType { describes: Some(_), .. } => Unsupported::Describes,
            _ => return (&ty.inner).try_into(),
        };
        Err(Error::Unsupported(unsupported))
    };
    CompositeInnerType to CompositeType, ty => Ok(match ty {
        CompositeInnerType::Func(ty) => Self::Func(ty.try_into()?),
        CompositeInnerType::Array(ty) => Self::Array((*ty).try_into()?),
        CompositeInnerType::Struct(ty) => Self::Struct(ty.try_into()?),
        CompositeInnerType::Cont(_) => return Err(Error::Unsupported(Unsupported::Continuation)),
    });
    SubType to SubType, ty => Ok(Self {
        is_final: ty.is_final,
        supertype_idx: ty.supertype_idx,
        composite_type: (&ty.composite_type).try_into()?,
    });
}

encode! {
    HeapType, ty => proved::HeapType::try_from(*ty)?;
    TagType, ty => proved::TagType::try_from(*ty)?;
}

impl From<&proved::FuncType> for FuncType {
    #[inline]
    fn from(ty: &proved::FuncType) -> Self {
        let [params, results] = [ty.params(), ty.results()].map(|types| types.iter().copied());
        Self::new(params.map(Into::into), results.map(Into::into))
    }
}

impl From<&proved::StructType> for StructType {
    #[inline]
    fn from(proved::StructType { fields }: &proved::StructType) -> Self {
        Self { fields: fields.iter().map(|field| (*field).into()).collect() }
    }
}

impl From<&proved::CompositeType> for CompositeType {
    #[inline]
    fn from(ty: &proved::CompositeType) -> Self {
        let inner = match ty {
            proved::CompositeType::Func(ty) => CompositeInnerType::Func(ty.into()),
            proved::CompositeType::Array(ty) => CompositeInnerType::Array((*ty).into()),
            proved::CompositeType::Struct(ty) => CompositeInnerType::Struct(ty.into()),
        };
        Self { inner, shared: false, descriptor: None, describes: None }
    }
}

impl From<&proved::SubType> for SubType {
    #[inline]
    fn from(ty: &proved::SubType) -> Self {
        Self {
            is_final: ty.is_final,
            supertype_idx: ty.supertype_idx,
            composite_type: (&ty.composite_type).into(),
        }
    }
}
