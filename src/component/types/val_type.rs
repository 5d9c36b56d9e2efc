//! Value types.

pub use crate::proved::wasm_encoder::{ComponentValType, PrimitiveValType};

use core::fmt;

/// The type as WIT and the text format write it: `u8`, `error-context`.
impl fmt::Display for PrimitiveValType {
    #[inline]
    fn fmt(&self, f: &mut fmt::Formatter<'_>) -> fmt::Result {
        f.pad(match self {
            Self::Bool => "bool",
            Self::S8 => "s8",
            Self::U8 => "u8",
            Self::S16 => "s16",
            Self::U16 => "u16",
            Self::S32 => "s32",
            Self::U32 => "u32",
            Self::S64 => "s64",
            Self::U64 => "u64",
            Self::F32 => "f32",
            Self::F64 => "f64",
            Self::Char => "char",
            Self::String => "string",
            Self::ErrorContext => "error-context",
        })
    }
}

crate::encode::encode! {
    PrimitiveValType, ty => *ty;
    ComponentValType, ty => *ty;
}
