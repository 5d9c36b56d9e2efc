//! Indices that are out of range.

use std::fmt::{self, Display};
use wenc::tree::{Scope, UsedIndex};

/// An index that is out of range, in words.
pub struct OutOfRange<'a>(pub &'a UsedIndex);

impl Display for OutOfRange<'_> {
    fn fmt(&self, f: &mut fmt::Formatter<'_>) -> fmt::Result {
        let UsedIndex { space, scope, index, count } = self.0;
        write!(f, "no {space} {index}: {space} space ")?;
        match scope {
            Scope::Component(0) => {}
            Scope::Component(1) => f.write_str("of the component around ")?,
            Scope::Component(out) => write!(f, "of the component {out} around ")?,
            Scope::Type(1) => f.write_str("of the type ")?,
            Scope::Type(depth) => write!(f, "of the type at depth {depth} ")?,
        }
        write!(f, "has {}", count.unwrap_or_default())
    }
}
