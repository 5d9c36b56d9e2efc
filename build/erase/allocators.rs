//! Allocators, which the types of Rust's library don't have.

use super::known::DECLARING;
use super::{Eraser, Refused};
use std::ops::Range;

/// What may follow an allocator's name and the sign after it, other than a lifetime.
const BOUNDS: [&str; 5] = ["Allocator", "Clone", "Copy", "Drop", "Global"];

impl Eraser<'_> {
    /// Leaves out allocators where they are parameters, stand for these or have bounds. The others
    /// become `Handed`, which is a type and no value. A name that is an allocator's anywhere in the
    /// file is one everywhere: where it is declared or imported as something else, or is a
    /// variable, the file is refused here or doesn't compile.
    pub(super) fn allocators(&mut self) -> Result<(), Refused> {
        let is_declared = |i: &usize| {
            let is_bound = self.stands(i + 1, ": Allocator") && self.is_word(*i);
            is_bound || self.stands(i + 1, "= Global >") && self.at(*i) != "Allocator"
        };
        let all = 0..self.code.len();
        let names: Vec<&str> = all.clone().filter(is_declared).map(|i| self.at(i)).collect();
        let is_another =
            |i: &usize| names.contains(&self.at(*i)) && DECLARING.contains(&self.before(*i, 1));
        if let Some(i) = all.clone().find(is_another) {
            return Err((self.line(i), "an allocator's name that is declared"));
        }
        let mut left = Vec::new();
        for i in all {
            left.push(i);
            while let Some(range) = self.superfluous(&left, &names) {
                left.drain(range).for_each(|j| self.leave_out_with_blank(j));
            }
        }
        for i in left {
            if names.contains(&self.at(i)) {
                self.put(i, "crate::shim::alloc::Handed");
            }
        }
        Ok(())
    }

    /// Leaves out a token, and the blank after it unless a word follows the bracket that it is.
    fn leave_out_with_blank(&mut self, i: usize) {
        self.put(i, "");
        let after = self.code[i] + 1;
        if self.at(i) != ">" && self.tokens.get(after).is_some_and(|token| token.text == " ") {
            self.becomes[after] = "".into();
        }
    }

    /// Returns where the last of these positions have an allocator that is left out: its bounds
    /// first, then itself with a comma, or with the brackets if they have nothing else.
    fn superfluous(&self, left: &[usize], names: &[&str]) -> Option<Range<usize>> {
        let begin = left.len().checked_sub(5)?;
        let words: [&str; 5] = std::array::from_fn(|n| self.at(left[begin + n]));
        let is = |n: usize| names.contains(&words[n]) && self.is_parameter(left[begin + n]);
        let is_bound = |word: &str| BOUNDS.contains(&word) || word.starts_with('\'');
        let range = match words {
            [.., ":" | "+" | "=", bound] if is(2) && is_bound(bound) => 3..5,
            [.., "<" | "," | "where", _, ","] if is(3) => 3..5,
            [.., ",", _, ">"] if is(3) => 2..4,
            [":", ":", "<", _, ">"] if is(3) => 0..5,
            [.., "<", _, ">"] if is(3) => 2..5,
            [.., "where", "{"] => 3..4,
            _ => return None,
        };
        Some(begin + range.start..begin + range.end)
    }

    /// Returns whether the token is between `<` and `>`, or behind `where`: what else stands there
    /// in an expression is no type, and so has no allocator's name.
    fn is_parameter(&self, i: usize) -> bool {
        let mut depth = 0;
        for j in (0..i).rev() {
            match self.at(j) {
                ">" if !["-", "="].contains(&self.before(j, 1)) => depth += 1,
                ")" | "]" => depth += 1,
                "<" | "where" if depth == 0 => return true,
                "(" | "[" | "{" | "}" | ";" if depth == 0 => return false,
                "<" | "(" | "[" => depth -= 1,
                _ => {}
            }
        }
        false
    }
}
