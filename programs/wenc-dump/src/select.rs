//! Reports of some sections only.

use super::fault::Fault;
use super::report::{Content, Part, Report, Rest};
use super::words;
use std::ffi::OsStr;
use std::io;
use wenc::tree::UsedIndex;

/// A kind of sections, by its word, which components and core modules may share, or by its id.
#[derive(Clone, Copy, PartialEq, Eq)]
pub enum Kind {
    Word(&'static str),
    Id(u8),
}

impl Kind {
    /// Returns the words for sections, of components first, with spaces.
    fn words() -> impl Iterator<Item = &'static str> {
        let of_components = || (0..=u8::MAX).filter_map(words::section);
        let of_modules = (0..=u8::MAX).filter_map(words::core_section);
        let others = of_modules.filter(move |word| of_components().all(|one| one != *word));
        of_components().chain(others)
    }

    /// Parses a word, with hyphens or spaces, or a decimal id; `None` if there are no such
    /// sections.
    pub fn parse(text: &str) -> Option<Self> {
        if let Ok(id) = text.parse() {
            return Some(Self::Id(id));
        }
        let text = text.replace('-', " ");
        Self::words().find(|word| *word == text).map(Self::Word)
    }

    /// Returns what can be parsed, as a list of words with hyphens.
    pub fn expected() -> String {
        let words: Vec<String> = Self::words().map(|word| word.replace(' ', "-")).collect();
        format!("an id, or one of {}", words.join(", "))
    }

    /// Returns whether a section with this id and this word is of the kind.
    fn has(self, id: u8, word: Option<&str>) -> bool {
        match self {
            Self::Word(kind) => word == Some(kind),
            Self::Id(kind) => id == kind,
        }
    }
}

/// A report of a part of a file.
pub struct Selected<'r> {
    report: &'r mut dyn Report,
    /// The kinds of those sections of the file that are in it; all if there are none.
    kinds: &'r [Kind],
    has_items: bool,
    /// The number of open parts, and of those that are left out.
    depth: (usize, usize),
}

impl<'r> Selected<'r> {
    /// Creates a report of sections of these kinds, with their items or without those that have no
    /// sections.
    pub fn new(report: &'r mut dyn Report, kinds: &'r [Kind], has_items: bool) -> Self {
        Self { report, kinds, has_items, depth: (0, 0) }
    }

    /// Passes a call on, unless the innermost open part is left out.
    fn pass(&mut self, to: impl FnOnce(&mut dyn Report) -> io::Result<()>) -> io::Result<()> {
        if self.depth.1 > 0 { Ok(()) } else { to(self.report) }
    }

    /// Returns whether a part is left out.
    fn is_left_out(&self, part: &Part) -> bool {
        match part {
            Part::Section { id, word, .. } if self.depth.0 == 1 && !self.kinds.is_empty() => {
                !self.kinds.iter().any(|kind| kind.has(*id, *word))
            }
            Part::Item { content: Content::Node(..) | Content::Custom(..), .. }
            | Part::Entry(_) => !self.has_items,
            _ => false,
        }
    }
}

impl Report for Selected<'_> {
    fn begin(&mut self, file: &OsStr) -> io::Result<()> {
        self.report.begin(file)
    }

    fn open(&mut self, part: &Part) -> io::Result<()> {
        self.depth.1 += usize::from(self.depth.1 > 0 || self.is_left_out(part));
        self.depth.0 += 1;
        self.pass(|report| report.open(part))
    }

    fn unread(&mut self, place: usize, what: &str, rest: Rest) -> io::Result<()> {
        self.pass(|report| report.unread(place, what, rest))
    }

    fn out_of_range(&mut self, place: usize, index: &UsedIndex) -> io::Result<()> {
        self.pass(|report| report.out_of_range(place, index))
    }

    fn flush(&mut self) -> io::Result<()> {
        self.report.flush()
    }

    fn close(&mut self) -> io::Result<()> {
        let is_left_out = self.depth.1 > 0;
        self.depth = (self.depth.0 - 1, self.depth.1.saturating_sub(1));
        if is_left_out { Ok(()) } else { self.report.close() }
    }

    fn end(&mut self, fault: Option<&Fault>) -> io::Result<()> {
        self.report.end(fault)
    }
}
