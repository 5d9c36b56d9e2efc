//! Adapters of the caller's names and lists for the proved code.

use crate::ComponentValType;
use crate::proved::wenc_base::{self as proved, Fault};
use alloc::vec::Vec;
use core::ops::Range;

/// A user's name, adapted to the proved code.
pub(crate) struct Name<S>(S);

impl<S: AsRef<str>> proved::Encode for Name<S> {
    #[inline]
    fn encode(&self, sink: &mut Vec<u8>) -> Result<(), Fault> {
        proved::Encode::encode(&self.0.as_ref(), sink)
    }
}

impl<S: AsRef<str>> proved::Named for Name<S> {}

/// A list behind a pointer: the code that takes it is compiled once, not for each iterator.
pub(crate) struct List<'a, T>(pub &'a mut (dyn Source<T> + 'a));

impl<T> Iterator for List<'_, T> {
    type Item = T;

    #[inline]
    fn next(&mut self) -> Option<T> {
        self.0.draw()
    }
}

/// An iterator whose vtable has one method, unlike that of `dyn Iterator`.
pub(crate) trait Source<T> {
    /// Returns the next value.
    fn draw(&mut self) -> Option<T>;
}

impl<I: Iterator> Source<I::Item> for I {
    #[inline]
    fn draw(&mut self) -> Option<I::Item> {
        self.next()
    }
}

/// The names and types of fields or parameters. The compiler unrolls an array of them with the `?`
/// in `next`, but not with `map`.
pub(crate) struct Labelled<I>(pub I);

impl<'a, T, I> Iterator for Labelled<I>
where
    T: Into<ComponentValType>,
    I: Iterator<Item = (&'a str, T)>,
{
    type Item = (&'a str, ComponentValType);

    #[inline]
    fn next(&mut self) -> Option<Self::Item> {
        let (name, ty) = self.0.next()?;
        Some((name, ty.into()))
    }
}

/// Whether a list is an array, judged by its size: its iterator adds a range of indices.
pub(crate) const fn is_array<L: IntoIterator>() -> bool {
    let array_size = size_of::<L>().next_multiple_of(size_of::<usize>());
    // 32 bits: rustc computes it, and refuses a sum that wraps.
    size_of::<L::IntoIter>() == array_size + size_of::<Range<usize>>()
}

/// Makes a call of the builder with a list of these items. For arrays it is compiled by their type,
/// as their length is known then. Other lists are passed by pointer to a function that is compiled
/// once, not for each of their many iterators.
macro_rules! with_list {
    (
        $self:ident.$name:ident$(<$generic:ident: $bound:path>)?($($arg:ident: $ty:ty),* $(,)?),
        $array:ty: $list:expr => $item:ty
    ) => {{
        fn listed$(<$generic: $bound>)?(
            builder: &mut $crate::ComponentBuilder,
            $($arg: $ty,)*
            list: $crate::adapters::List<'_, $item>,
        ) -> Result<u32, $crate::proved::wenc_base::Fault> {
            builder.0.$name($($arg,)* list)
        }

        let mut list = $list;
        if const { $crate::adapters::is_array::<$array>() } {
            return Ok($self.0.$name($($arg,)* list)?);
        }
        Ok(listed($self, $($arg,)* $crate::adapters::List(&mut list))?)
    }};
}

pub(crate) use with_list;

/// Converts pairs of a user's name and another value for the proved code.
#[inline]
pub(crate) fn named<S: AsRef<str>, T>(
    values: impl IntoIterator<Item = (S, T)>,
) -> impl Iterator<Item = (Name<S>, T)> {
    values.into_iter().map(|(name, value)| (Name(name), value))
}

/// Converts triples of a user's name and two other values for the proved code.
#[inline]
pub(crate) fn named_items<S: AsRef<str>, T, U>(
    values: impl IntoIterator<Item = (S, T, U)>,
) -> impl Iterator<Item = (Name<S>, T, U)> {
    values.into_iter().map(|(name, kind, index)| (Name(name), kind, index))
}
