//! Colours on a terminal.

use std::ffi::OsStr;

/// A kind of text that has a colour, with the number of the colour in ANSI escape sequences.
#[derive(Clone, Copy)]
pub enum Hue {
    /// A byte offset, or a range of them.
    Place = 2,
    /// An index that is out of range.
    Fault = 31,
    Name = 32,
    Index = 36,
}

/// Returns whether standard output is coloured, given the variables `NO_COLOR` and `TERM`.
pub fn are_wanted(is_terminal: bool, no_color: Option<&OsStr>, term: Option<&OsStr>) -> bool {
    is_terminal && no_color.is_none_or(OsStr::is_empty) && term.is_none_or(|term| term != "dumb")
}
