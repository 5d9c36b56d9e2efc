//! Strings: std's, with Rattle's calls, which return an error if an allocation fails.

use super::alloc::{AllocError, Global, TryClone, ask};
use super::vec::FIRST_BYTES;
pub use alloc::string::String;
use core::fmt;

/// Rattle's calls of a string, under other names than those of std's that abort.
pub trait StringUsing: Sized {
    /// Creates an empty string without allocating.
    fn new_using(alloc: Global) -> Self;

    /// Copies a string.
    fn from_str(alloc: Global, text: &str) -> Result<Self, AllocError>;

    /// Appends a character.
    #[cfg(any(script, test))]
    fn push_using(&mut self, letter: char) -> Result<(), AllocError>;

    /// Appends a string.
    fn push_str_using(&mut self, text: &str) -> Result<(), AllocError>;

    /// Appends formatted text, for `write!`.
    fn write_fmt(&mut self, arguments: fmt::Arguments<'_>) -> Result<(), AllocError>;
}

#[inline]
fn reserve(text: &mut String, more: usize) -> Result<(), AllocError> {
    if text.capacity() - text.len() < more { grow(text, more) } else { Ok(()) }
}

#[cold]
#[inline(never)]
fn grow(text: &mut String, more: usize) -> Result<(), AllocError> {
    ask()?;
    let least = if text.capacity() == 0 { FIRST_BYTES } else { 0 };
    Ok(text.try_reserve(more.max(least))?)
}

impl StringUsing for String {
    #[inline]
    fn new_using(_alloc: Global) -> Self {
        String::new()
    }

    #[inline]
    fn from_str(_alloc: Global, text: &str) -> Result<Self, AllocError> {
        let mut made = String::new();
        if !text.is_empty() {
            ask()?;
            made.try_reserve_exact(text.len())?;
            made.push_str(text);
        }
        Ok(made)
    }

    #[cfg(any(script, test))]
    #[inline]
    fn push_using(&mut self, letter: char) -> Result<(), AllocError> {
        reserve(self, letter.len_utf8())?;
        self.push(letter);
        Ok(())
    }

    #[inline]
    fn push_str_using(&mut self, text: &str) -> Result<(), AllocError> {
        reserve(self, text.len())?;
        self.push_str(text);
        Ok(())
    }

    fn write_fmt(&mut self, arguments: fmt::Arguments<'_>) -> Result<(), AllocError> {
        struct Writer<'a>(&'a mut String);

        impl fmt::Write for Writer<'_> {
            fn write_str(&mut self, text: &str) -> fmt::Result {
                self.0.push_str_using(text).map_err(|_| fmt::Error)
            }

            fn write_fmt(&mut self, arguments: fmt::Arguments<'_>) -> fmt::Result {
                fmt::write(self, arguments)
            }
        }

        fmt::write(&mut Writer(self), arguments).map_err(|_| AllocError)
    }
}

impl TryClone for String {
    #[inline]
    fn try_clone(&self) -> Result<Self, AllocError> {
        String::from_str(Global, self)
    }
}
