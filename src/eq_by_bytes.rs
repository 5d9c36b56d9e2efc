//! Comparison and `Debug` output of sections and types by their bytes.

use crate::error::or_panic;
use crate::proved::wenc_base::{Encode, Fault};
use alloc::vec::Vec;

/// Returns the bytes of a value, or `None` while it is unfinished.
pub(crate) fn encoded(value: &impl Encode) -> Option<Vec<u8>> {
    let mut bytes = Vec::new();
    match value.encode(&mut bytes) {
        Err(Fault::Unfinished) => None,
        result => {
            or_panic(result);
            Some(bytes)
        }
    }
}

/// Implements `PartialEq` and `Debug` by the encoded bytes.
macro_rules! eq_by_bytes {
    ($($name:ident)*) => {
        $(
            /// Values with the same bytes are equal. An unfinished value isn't equal to any.
            impl PartialEq for $name {
                #[inline]
                fn eq(&self, other: &Self) -> bool {
                    let of = |value: &Self| $crate::eq_by_bytes::encoded(&value.0);
                    matches!((of(self), of(other)), (Some(one), Some(two)) if one == two)
                }
            }

            /// Prints the bytes.
            impl core::fmt::Debug for $name {
                #[inline]
                fn fmt(&self, f: &mut core::fmt::Formatter<'_>) -> core::fmt::Result {
                    let mut printed = f.debug_struct(stringify!($name));
                    match $crate::eq_by_bytes::encoded(&self.0) {
                        Some(bytes) => printed.field("bytes", &bytes).finish(),
                        None => printed.field("is_finished", &false).finish_non_exhaustive(),
                    }
                }
            }
        )*
    };
}

pub(crate) use eq_by_bytes;
