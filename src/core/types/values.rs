//! Core types of values.

use crate::core::conversions::supported;
use crate::encode::encode;
use crate::proved::wasm_encoder as proved;
use crate::{Error, Unsupported};

/// A core value type ([WebAssembly 3.0, binary format, "Value Types"][types]).
///
/// [types]: https://webassembly.github.io/spec/core/binary/types.html#value-types
///
/// ```
/// use wenc::{Encode, HeapType, RefType, ValType};
///
/// let mut sink = Vec::new();
/// ValType::I32.encode(&mut sink);
/// ValType::FUNCREF.encode(&mut sink);
/// RefType { nullable: false, heap_type: HeapType::Concrete(64) }.encode(&mut sink);
/// assert_eq!(sink, [0x7f, 0x70, 0x64, 0xc0, 0x00]);
/// ```
#[derive(Clone, Copy, Debug, PartialEq, Eq, PartialOrd, Ord, Hash)]
pub enum ValType {
    /// A 32-bit integer.
    I32,
    /// A 64-bit integer.
    I64,
    /// A 32-bit float.
    F32,
    /// A 64-bit float.
    F64,
    /// A 128-bit vector.
    V128,
    /// A reference.
    Ref(RefType),
}

impl ValType {
    /// A nullable function reference.
    pub const FUNCREF: Self = Self::Ref(RefType::FUNCREF);
    /// A nullable external reference.
    pub const EXTERNREF: Self = Self::Ref(RefType::EXTERNREF);
    /// A nullable exception reference.
    pub const EXNREF: Self = Self::Ref(RefType::EXNREF);
    /// A nullable continuation reference, which isn't supported.
    pub const CONTREF: Self = Self::Ref(RefType::CONTREF);

    /// Returns `true` if the type has a default value: a number, a vector or a nullable reference.
    pub fn is_defaultable(&self) -> bool {
        match self {
            Self::I32 | Self::I64 | Self::F32 | Self::F64 | Self::V128 => true,
            Self::Ref(ty) => ty.nullable,
        }
    }
}

impl From<RefType> for ValType {
    #[inline]
    fn from(ty: RefType) -> Self {
        Self::Ref(ty)
    }
}

/// A reference type (WebAssembly 3.0, binary format, "Reference Types").
#[derive(Clone, Copy, Debug, PartialEq, Eq, PartialOrd, Ord, Hash)]
pub struct RefType {
    /// Whether a reference may be null.
    pub nullable: bool,
    /// The type of the referent.
    pub heap_type: HeapType,
}

impl RefType {
    /// A nullable function reference.
    pub const FUNCREF: Self = Self::or_null(HeapType::FUNC);
    /// A nullable external reference.
    pub const EXTERNREF: Self = Self::or_null(HeapType::EXTERN);
    /// A nullable exception reference.
    pub const EXNREF: Self = Self::or_null(HeapType::EXN);
    /// A nullable continuation reference, which isn't supported.
    pub const CONTREF: Self = Self::or_null(HeapType::CONT);

    /// A nullable reference to this type.
    const fn or_null(heap_type: HeapType) -> Self {
        Self { nullable: true, heap_type }
    }

    /// Creates a reference to an abstract heap type. A shared reference isn't supported.
    pub fn new_abstract(ty: AbstractHeapType, nullable: bool, shared: bool) -> Self {
        Self { nullable, heap_type: HeapType::Abstract { shared, ty } }
    }

    /// Returns this type with its nullability set.
    pub fn nullable(mut self, nullable: bool) -> Self {
        self.nullable = nullable;
        self
    }
}

/// A heap type, the type of a referent (WebAssembly 3.0, binary format, "Heap Types").
#[derive(Clone, Copy, Debug, PartialEq, Eq, PartialOrd, Ord, Hash)]
pub enum HeapType {
    /// An abstract heap type.
    Abstract {
        /// Whether threads share it, which isn't supported.
        shared: bool,
        /// The type.
        ty: AbstractHeapType,
    },
    /// The core type with this index.
    Concrete(u32),
    /// Exactly the core type with this index, which isn't supported.
    Exact(u32),
}

impl HeapType {
    /// An abstract heap type that threads don't share.
    const fn unshared(ty: AbstractHeapType) -> Self {
        Self::Abstract { shared: false, ty }
    }
}

/// Defines the abstract heap types, each with its constant.
macro_rules! heap_types {
    (
        { $($(#[$doc:meta])* $name:ident $constant:ident;)* }
        without { $($(#[$no_doc:meta])* $no_name:ident $no_constant:ident;)* }
    ) => {
        /// An abstract heap type (WebAssembly 3.0, binary format, "Heap Types").
        #[derive(Clone, Copy, Debug, PartialEq, Eq, PartialOrd, Ord, Hash)]
        pub enum AbstractHeapType {
            $($(#[$doc])* $name,)*
            $($(#[$no_doc])* $no_name,)*
        }

        impl HeapType {
            $($(#[$doc])*
            pub const $constant: Self = Self::unshared(AbstractHeapType::$name);)*
            $($(#[$no_doc])*
            pub const $no_constant: Self = Self::unshared(AbstractHeapType::$no_name);)*
        }

        supported! {
            enum AbstractHeapType { $($name),* }
                without [$(AbstractHeapType::$no_name)|* => Continuation];
        }
    };
}

heap_types! {
    {
        /// Functions.
        Func FUNC;
        /// External host references.
        Extern EXTERN;
        /// Top of the `any` hierarchy.
        Any ANY;
        /// Bottom of the `any` hierarchy.
        None NONE;
        /// Bottom of the `extern` hierarchy.
        NoExtern NO_EXTERN;
        /// Bottom of the `func` hierarchy.
        NoFunc NO_FUNC;
        /// Values that can be compared.
        Eq EQ;
        /// Structs.
        Struct STRUCT;
        /// Arrays.
        Array ARRAY;
        /// Unboxed 31-bit integers.
        I31 I31;
        /// Exceptions.
        Exn EXN;
        /// Bottom of the `exn` hierarchy.
        NoExn NO_EXN;
    } without {
        /// Continuations, which aren't supported.
        Cont CONT;
        /// Bottom of the `cont` hierarchy, which isn't supported.
        NoCont NO_CONT;
    }
}
