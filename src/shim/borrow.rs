//! Strings that are borrowed or owned.

use super::alloc::{AllocError, TryClone};
use super::string::String;
use alloc::borrow::Cow;

/// A string that is borrowed or owned.
#[derive(Debug)]
pub enum CowStr<'a> {
    /// Borrowed.
    Borrowed(&'a str),
    /// Owned.
    Owned(String),
}

impl CowStr<'_> {
    /// Returns the string as a slice.
    #[inline]
    pub fn as_str(&self) -> &str {
        match self {
            CowStr::Borrowed(text) => text,
            CowStr::Owned(text) => text.as_str(),
        }
    }
}

/// Strings with equal bytes are equal, borrowed or owned.
impl PartialEq for CowStr<'_> {
    #[inline]
    fn eq(&self, other: &Self) -> bool {
        self.as_str() == other.as_str()
    }
}

impl Eq for CowStr<'_> {}

impl TryClone for CowStr<'_> {
    #[inline]
    fn try_clone(&self) -> Result<Self, AllocError> {
        match self {
            CowStr::Borrowed(text) => Ok(CowStr::Borrowed(text)),
            CowStr::Owned(text) => Ok(CowStr::Owned(text.try_clone()?)),
        }
    }
}

impl<'a> From<Cow<'a, str>> for CowStr<'a> {
    #[inline]
    fn from(text: Cow<'a, str>) -> Self {
        match text {
            Cow::Borrowed(text) => CowStr::Borrowed(text),
            Cow::Owned(text) => CowStr::Owned(text),
        }
    }
}
