//! Names of items by their indices.

use crate::collections::collections;
use crate::eq_by_bytes::eq_by_bytes;
use crate::twins::twins;

collections! {
    /// Names of items by their indices, in the order of the calls ([WebAssembly 3.0, appendix,
    /// "Name Maps"][maps]). The standard requires ascending indices; this isn't checked.
    ///
    /// [maps]: https://webassembly.github.io/spec/core/appendix/custom.html#name-maps
    ///
    /// ```
    /// use wenc::{Encode, NameMap};
    ///
    /// let mut names = NameMap::new();
    /// names.append(0, "now");
    /// names.append(128, "log");
    ///
    /// let mut sink = Vec::new();
    /// names.encode(&mut sink);
    /// assert_eq!(sink, *b"\x02\x00\x03now\x80\x01\x03log");
    /// ```
    NameMap;
}

eq_by_bytes! { NameMap }

impl NameMap {
    twins! {
        /// Names the item with this index.
        fn append | try_append(&mut self, idx: u32, name: &str) -> ();
    }

    /// Returns the number of names.
    pub fn len(&self) -> u32 {
        self.0.len()
    }

    /// Returns `true` if there are no names.
    pub fn is_empty(&self) -> bool {
        self.0.is_empty()
    }
}
