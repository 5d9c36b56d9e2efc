//! Macros shared by sections and declared types, and the code that adds an item to one.

use crate::Error;
use crate::proved::wenc_base::Fault;
use core::mem::forget;

/// Implements `new`, `Default`, `Clone` and `Encode` for types that hold items or declarations,
/// over proved calls that take an allocator and can fail.
macro_rules! collections {
    ($($(#[$meta:meta])* $name:ident;)*) => {
        $($(#[$meta])*
        pub struct $name(pub(crate) $crate::proved::wasm_encoder::$name);

        impl $name {
            /// Creates an empty value without allocating.
            #[inline]
            pub fn new() -> Self {
                Self($crate::proved::wasm_encoder::$name::new($crate::shim::alloc::Global))
            }
        }

        impl Default for $name {
            /// Creates an empty value without allocating.
            #[inline]
            fn default() -> Self {
                Self::new()
            }
        }

        impl Clone for $name {
            #[inline]
            fn clone(&self) -> Self {
                Self($crate::error::or_panic(self.0.try_clone()))
            }
        }

        $crate::encode::encode! {
            $name, value => $crate::proved::wenc_base::ByRef(&value.0);
        })*
    };
}

pub(crate) use collections;

/// Implements `is_finished` and `discard_unfinished` for the parents of encoders.
macro_rules! parents {
    ($($name:ident)*) => {
        $(impl $name {
            /// Returns `false` while an encoder hasn't ended its type. Additions, and calls that
            /// encode or take this value, then fail with [`Unfinished`](crate::Error::Unfinished).
            #[inline]
            pub fn is_finished(&self) -> bool {
                self.0.is_finished()
            }

            /// Discards the unfinished type, which restores the state before it, and returns
            /// whether there was one. Doesn't allocate.
            #[inline]
            pub fn discard_unfinished(&mut self) -> bool {
                self.0.discard_unfinished()
            }
        })*
    };
}

pub(crate) use parents;

/// A section whose items are each added by one call.
pub(crate) trait AddsWhole {
    /// Discards the item that a call began and didn't end, if there is one.
    fn discard_unfinished(&mut self);
}

/// Implements [`AddsWhole`] for sections.
macro_rules! adding_whole {
    ($($name:ident)*) => {
        $(impl $crate::collections::AddsWhole for $name {
            #[inline]
            fn discard_unfinished(&mut self) {
                let mut items = core::mem::take(self).0.into_holder();
                items.discard_unfinished();
                self.0 = $crate::proved::wasm_encoder::$name::from_holder(items);
            }
        })*
    };
}

pub(crate) use adding_whole;

/// Adds an item to a section. If that fails or the caller's iterator panics, the section is
/// unchanged.
#[inline]
pub(crate) fn add_whole<S: AddsWhole>(
    section: &mut S,
    add: impl FnOnce(&mut S) -> Result<(), Fault>,
) -> Result<&mut S, Error> {
    struct Adding<'a, S: AddsWhole>(&'a mut S);

    impl<S: AddsWhole> Drop for Adding<'_, S> {
        #[cold]
        fn drop(&mut self) {
            self.0.discard_unfinished();
        }
    }

    let adding = Adding(&mut *section);
    let result = add(adding.0);
    forget(adding);
    result?;
    Ok(section)
}
