//! Macros for the encoders of types, with any parent.

/// Converts a proved encoder to the public one. A `From` would show up in the documentation of
/// that.
pub(crate) trait Public<T> {
    /// Returns the public encoder.
    fn public(self) -> T;
}

/// Defines an encoder over an enum with a variant for each parent.
macro_rules! encoders {
    ($(
        $(#[$meta:meta])*
        $name:ident by $by:ident over $section:ident $(and $case:ident $parent:ident)*;
    )*) => {
        $($crate::encoders::encoders! {
            @with [$(#[$meta])*] $name $by
            Builder ComponentBuilder, Section $section, Component ComponentType,
            Instance InstanceType $(, $case $parent)*
        })*
    };
    (
        @with [$(#[$meta:meta])*] $name:ident $by:ident
        $($case:ident $parent:ident),*
    ) => {
        enum $by<'a> {
            $($case(
                $crate::proved::wasm_encoder::$name<'a, $crate::proved::wasm_encoder::$parent>,
            ),)*
        }

        $(#[$meta])*
        pub struct $name<'a> {
            by: $by<'a>,
        }

        impl core::fmt::Debug for $name<'_> {
            #[inline]
            fn fmt(&self, f: &mut core::fmt::Formatter<'_>) -> core::fmt::Result {
                f.debug_struct(stringify!($name)).finish_non_exhaustive()
            }
        }

        $(impl<'a> $crate::encoders::Public<$name<'a>>
            for $crate::proved::wasm_encoder::$name<'a, $crate::proved::wasm_encoder::$parent>
        {
            #[inline]
            fn public(self) -> $name<'a> {
                $name { by: $by::$case(self) }
            }
        })*
    };
}

pub(crate) use encoders;

/// Makes a call on an encoder, with any parent.
macro_rules! on {
    ($encoder:expr, $by:ident $(+ $case:ident)*, $name:ident => $call:expr) => {
        match $encoder {
            $by::Builder($name) => $call,
            $by::Section($name) => $call,
            $by::Component($name) => $call,
            $by::Instance($name) => $call,
            $($by::$case($name) => $call,)*
        }
    };
}

pub(crate) use on;
