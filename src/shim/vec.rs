//! Vectors: std's, with Rattle's calls, which return an error if an allocation fails.

use super::alloc::{AllocError, AllocFailed, Global, ask, with_room};
pub use alloc::vec::Vec;

/// The least capacity of a vector of bytes, or a string, that grows from none. std's begin with 8:
/// a type of a few members, or a section of a few items, would be reallocated three times.
pub(super) const FIRST_BYTES: usize = if cfg!(test) { 1 } else { 64 };

/// Rattle's calls of a vector, under other names than those of std's that abort.
pub trait VecUsing<T>: Sized {
    /// Creates an empty vector without allocating.
    fn new_using(alloc: Global) -> Self;

    /// Creates an empty vector with this capacity.
    fn with_capacity_using(alloc: Global, capacity: usize) -> Result<Self, AllocError>;

    /// Copies a slice.
    fn from_slice(alloc: Global, values: &[T]) -> Result<Self, AllocError>
    where
        T: Copy;

    /// Returns the allocator.
    fn allocator_using(&self) -> &Global;

    /// Reserves room for at least this many more elements.
    fn try_reserve_using(&mut self, more: usize) -> Result<(), AllocError>;

    /// Appends an element, or returns it.
    fn push_using(&mut self, value: T) -> Result<(), AllocFailed<T>>;

    /// Inserts an element at an index, or returns it.
    fn insert_using(&mut self, at: usize, value: T) -> Result<(), AllocFailed<T>>;

    /// Appends the elements of a slice.
    fn extend_from_slice_using(&mut self, values: &[T]) -> Result<(), AllocError>
    where
        T: Copy;
}

/// Reserves room for one more element than asked for: a byte that is later inserted in front, such
/// as a section's id, then needs no reallocation.
#[cold]
#[inline(never)]
fn grow<T>(vec: &mut Vec<T>, more: usize) -> Result<(), AllocError> {
    let first = const { if size_of::<T>() == 1 { FIRST_BYTES } else { 0 } };
    let room = more.saturating_add(1).max(first.saturating_sub(vec.len()));
    ask()?;
    vec.try_reserve(room).or(Err(AllocError))
}

/// Appends an element for which there is no room. Apart from `push_using`, so that std's is
/// compiled there without its own growth.
#[cold]
#[inline(never)]
fn push_growing<T>(vec: &mut Vec<T>, value: T) -> Result<(), AllocFailed<T>> {
    if grow(vec, 1).is_err() {
        return Err(AllocFailed { value });
    }
    vec.push(value);
    Ok(())
}

/// Appends elements for which there is no room.
#[cold]
#[inline(never)]
fn extend_growing<T: Copy>(vec: &mut Vec<T>, values: &[T]) -> Result<(), AllocError> {
    grow(vec, values.len())?;
    vec.extend_from_slice(values);
    Ok(())
}

impl<T> VecUsing<T> for Vec<T> {
    #[inline]
    fn new_using(_alloc: Global) -> Self {
        Vec::new()
    }

    #[inline]
    fn with_capacity_using(_alloc: Global, capacity: usize) -> Result<Self, AllocError> {
        with_room(capacity, Vec::try_reserve_exact)
    }

    #[inline]
    fn from_slice(alloc: Global, values: &[T]) -> Result<Self, AllocError>
    where
        T: Copy,
    {
        let mut made = Vec::with_capacity_using(alloc, values.len())?;
        made.extend_from_slice_using(values)?;
        Ok(made)
    }

    #[inline]
    fn allocator_using(&self) -> &Global {
        &Global
    }

    #[inline]
    fn try_reserve_using(&mut self, more: usize) -> Result<(), AllocError> {
        if self.capacity() - self.len() < more { grow(self, more) } else { Ok(()) }
    }

    #[inline]
    fn push_using(&mut self, value: T) -> Result<(), AllocFailed<T>> {
        if self.len() == self.capacity() {
            // A larger value would be copied for the call, even where there is room.
            if const { size_of::<T>() <= size_of::<usize>() } {
                return push_growing(self, value);
            }
            if grow(self, 1).is_err() {
                return Err(AllocFailed { value });
            }
        }
        self.push(value);
        Ok(())
    }

    #[inline(never)]
    fn insert_using(&mut self, at: usize, value: T) -> Result<(), AllocFailed<T>> {
        if self.try_reserve_using(1).is_err() {
            return Err(AllocFailed { value });
        }
        self.insert(at, value);
        Ok(())
    }

    #[inline]
    fn extend_from_slice_using(&mut self, values: &[T]) -> Result<(), AllocError>
    where
        T: Copy,
    {
        if self.capacity() - self.len() < values.len() {
            return extend_growing(self, values);
        }
        self.extend_from_slice(values);
        Ok(())
    }
}
