//! Core types of functions, arrays and structs.

use super::ValType;
use alloc::boxed::Box;
use alloc::vec::Vec;

/// The type of a field of a struct or an element of an array ([WebAssembly 3.0, binary format,
/// "Composite Types"][types]).
///
/// [types]: https://webassembly.github.io/spec/core/binary/types.html#composite-types
#[derive(Clone, Copy, Debug, PartialEq, Eq, PartialOrd, Ord, Hash)]
pub enum StorageType {
    /// 8 bits.
    I8,
    /// 16 bits.
    I16,
    /// A value.
    Val(ValType),
}

impl StorageType {
    /// Returns `true` if the type has a default value: a number, a vector or a nullable reference.
    pub fn is_defaultable(&self) -> bool {
        match self {
            Self::I8 | Self::I16 => true,
            Self::Val(ty) => ty.is_defaultable(),
        }
    }
}

/// A field of a struct, or the elements of an array.
#[derive(Clone, Copy, Debug, PartialEq, Eq, PartialOrd, Ord, Hash)]
pub struct FieldType {
    /// The type of its value.
    pub element_type: StorageType,
    /// Whether it is mutable.
    pub mutable: bool,
}

/// The type of a core function.
#[derive(Clone, Debug, PartialEq, Eq, PartialOrd, Ord, Hash)]
pub struct FuncType {
    values: Box<[ValType]>,
    params: usize,
}

impl FuncType {
    /// Creates a function type from the types of its parameters and results.
    ///
    /// ```
    /// use wenc::{FuncType, ValType};
    ///
    /// let ty = FuncType::new([ValType::I32, ValType::I32], [ValType::I64]);
    /// assert_eq!(ty.params().len(), 2);
    /// assert_eq!(ty.results(), [ValType::I64]);
    /// ```
    pub fn new<P, R>(params: P, results: R) -> Self
    where
        P: IntoIterator<Item = ValType>,
        R: IntoIterator<Item = ValType>,
    {
        let mut values: Vec<ValType> = params.into_iter().collect();
        let params = values.len();
        #[expect(clippy::disallowed_methods, reason = "it can't fail, as upstream's")]
        values.extend(results);
        Self { values: values.into(), params }
    }

    /// Returns the types of the parameters.
    #[inline]
    pub fn params(&self) -> &[ValType] {
        &self.values[..self.params]
    }

    /// Returns the types of the results.
    #[inline]
    pub fn results(&self) -> &[ValType] {
        &self.values[self.params..]
    }
}

/// An array type.
#[derive(Clone, Copy, Debug, PartialEq, Eq, PartialOrd, Ord, Hash)]
pub struct ArrayType(
    /// The elements.
    pub FieldType,
);

/// A struct type.
#[derive(Clone, Debug, PartialEq, Eq, PartialOrd, Ord, Hash)]
pub struct StructType {
    /// The fields, in their order.
    pub fields: Box<[FieldType]>,
}

/// A continuation type. It isn't in WebAssembly 3.0, and isn't supported.
#[derive(Clone, Copy, Debug, PartialEq, Eq, PartialOrd, Ord, Hash)]
pub struct ContType(
    /// The index of the function type.
    pub u32,
);

/// A function, array or struct type, with the properties that proposals add.
#[derive(Clone, Debug, PartialEq, Eq, PartialOrd, Ord, Hash)]
pub struct CompositeType {
    /// The type itself.
    pub inner: CompositeInnerType,
    /// Whether threads share it, which isn't supported.
    pub shared: bool,
    /// The index of its descriptor type, which isn't supported.
    pub descriptor: Option<u32>,
    /// The index of the type that it describes, which isn't supported.
    pub describes: Option<u32>,
}

/// A function, array or struct type.
#[derive(Clone, Debug, PartialEq, Eq, PartialOrd, Ord, Hash)]
pub enum CompositeInnerType {
    /// A function type.
    Func(FuncType),
    /// An array type.
    Array(ArrayType),
    /// A struct type.
    Struct(StructType),
    /// A continuation type, which isn't supported.
    Cont(ContType),
}

/// A composite type as a subtype (WebAssembly 3.0, binary format, "Recursive Types").
#[derive(Clone, Debug, PartialEq, Eq, PartialOrd, Ord, Hash)]
pub struct SubType {
    /// Whether it has no subtypes.
    pub is_final: bool,
    /// The index of its supertype, if it has one.
    pub supertype_idx: Option<u32>,
    /// The type itself.
    pub composite_type: CompositeType,
}
