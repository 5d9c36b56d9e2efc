//! Calls in two forms.

/// Defines each call twice: with upstream's name, where it panics on an error, and with `try_` in
/// front, where it returns the error. The body is that of the latter. Without a body, the proved
/// call of the same name is made, with the same arguments or those after `as`. What documents each
/// call by its name is expanded for rustdoc alone.
macro_rules! twins {
    () => {};
    (
        $(#[$meta:meta])*
        fn $name:ident | $tried:ident $(<$($generic:tt),+>)? ($($args:tt)*) -> $output:ty
        $(where { $($bounds:tt)* })?
        $body:block
        $($rest:tt)*
    ) => {
        twins! {
            @receiver ($($args)*)
            [$(#[$meta])*] [$name] [$tried] [$(<$($generic),+>)?] [$output] [$($($bounds)*)?] $body
        }
        twins! { $($rest)* }
    };
    (
        $(#[$meta:meta])*
        fn $name:ident | $tried:ident $(<$($generic:tt),+>)?
        (&mut $self:ident $(, $arg:ident : $ty:ty)* $(,)?) -> $output:ty;
        $($rest:tt)*
    ) => {
        twins! {
            $(#[$meta])*
            fn $name | $tried $(<$($generic),+>)? (&mut $self $(, $arg: $ty)*) -> $output
                as ($($arg),*);
            $($rest)*
        }
    };
    (
        $(#[$meta:meta])*
        fn $name:ident | $tried:ident $(<$($generic:tt),+>)?
        (&mut $self:ident $($args:tt)*) -> $output:ty as ($($handed:tt)*);
        $($rest:tt)*
    ) => {
        twins! {
            $(#[$meta])*
            fn $name | $tried $(<$($generic),+>)? (&mut $self $($args)*) -> $output {
                let value = $self.0.$name($($handed)*)?;
                Ok($crate::twins::Output::of($self, value))
            }
            $($rest)*
        }
    };
    (@receiver (&mut $self:ident $(, $arg:ident : $ty:ty)* $(,)?) $($rest:tt)*) => {
        twins! { @both [&mut $self] $self [$($arg : $ty),*] [$($arg),*] $($rest)* }
    };
    (@receiver (&$self:ident $(, $arg:ident : $ty:ty)* $(,)?) $($rest:tt)*) => {
        twins! { @both [&$self] $self [$($arg : $ty),*] [$($arg),*] $($rest)* }
    };
    (@receiver ($self:ident $(, $arg:ident : $ty:ty)* $(,)?) $($rest:tt)*) => {
        twins! { @both [$self] $self [$($arg : $ty),*] [$($arg),*] $($rest)* }
    };
    (
        @both [$($receiver:tt)*] $self:ident [$($params:tt)*] [$($args:tt)*]
        [$(#[$meta:meta])*] [$name:ident] [$tried:ident] [$($generics:tt)*] [$output:ty]
        [$($bounds:tt)*] $body:block
    ) => {
        $(#[$meta])*
        ///
        /// # Panics
        ///
        #[cfg_attr(doc, doc = concat!(
            "Panics if [`", stringify!($tried), "`](Self::", stringify!($tried), ") fails."
        ))]
        #[inline]
        #[track_caller]
        pub fn $name $($generics)* ($($receiver)*, $($params)*) -> $output
        where $($bounds)*
        {
            $crate::error::or_panic($self.$tried($($args)*))
        }

        #[cfg_attr(doc, doc = concat!(
            "Does what [`", stringify!($name), "`](Self::", stringify!($name), ") does, but \
             returns an error instead of panicking."
        ))]
        ///
        /// # Errors
        ///
        /// Fails as [`Error`](crate::Error) describes.
        #[inline]
        pub fn $tried $($generics)* ($($receiver)*, $($params)*) -> Result<$output, $crate::Error>
        where $($bounds)*
        $body
    };
}

pub(crate) use twins;

/// The result of a call without a body: its receiver, or the result of the proved call.
pub(crate) trait Output<S, V> {
    /// Returns one of the two.
    fn of(receiver: S, value: V) -> Self;
}

impl<'a, S> Output<&'a mut S, ()> for &'a mut S {
    #[inline]
    fn of(receiver: &'a mut S, (): ()) -> Self {
        receiver
    }
}

impl<S, V> Output<&mut S, V> for V {
    #[inline]
    fn of(_: &mut S, value: V) -> V {
        value
    }
}
