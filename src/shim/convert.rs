//! Conversions.

use super::vec::Vec;

/// A value that can be borrowed as a slice.
pub trait AsSlice<T> {
    /// Returns the slice.
    fn as_slice(&self) -> &[T];
}

impl<T> AsSlice<T> for &[T] {
    #[inline]
    fn as_slice(&self) -> &[T] {
        self
    }
}

impl<T, const N: usize> AsSlice<T> for [T; N] {
    #[inline]
    fn as_slice(&self) -> &[T] {
        self
    }
}

impl<T, const N: usize> AsSlice<T> for &[T; N] {
    #[inline]
    fn as_slice(&self) -> &[T] {
        *self
    }
}

impl<T> AsSlice<T> for Vec<T> {
    #[inline]
    fn as_slice(&self) -> &[T] {
        Vec::as_slice(self)
    }
}

impl<T> AsSlice<T> for &Vec<T> {
    #[inline]
    fn as_slice(&self) -> &[T] {
        Vec::as_slice(self)
    }
}
