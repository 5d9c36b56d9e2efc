//! Conditions of compilation: which items exist only with a feature.

use super::known::{INNER, OWNED, PARTIAL};
use super::{Eraser, Refused};
use std::ops::Range;

/// The condition of what walks over components: borrowed values.
pub const WALK: &str = "any(feature = \"walk\", script, test)";

/// The condition of what owns: trees.
pub const TREE: &str = "any(feature = \"tree\", script, test)";

/// Returns whether a module exists only with the feature `tree`, so that none of its items needs a
/// condition.
pub fn is_owned(module: &str) -> bool {
    PARTIAL.contains(&(module, TREE))
}

impl Eraser<'_> {
    /// Puts a condition before each item of a Rust file that needs one.
    pub(super) fn conditions(&mut self) -> Result<(), Refused> {
        let mut i = 0;
        while i < self.code.len() {
            let keyword = self.behind_visibility(i)?;
            i = match self.at(keyword) {
                "#" if self.stands(i + 1, "[ derive") => self.conditional_derive(i)?,
                _ if !self.is_item(i) => i + 1,
                "use" => self.conditional_use(i, keyword)?,
                "mod" => {
                    let of = PARTIAL.iter().find(|(name, _)| *name == self.at(keyword + 1));
                    self.condition(i, of.map(|(_, condition)| *condition));
                    keyword + 1
                }
                "enum" | "fn" | "impl" | "struct" | "type" => {
                    let body = self.first_of(keyword, &["{", ";"])?;
                    let condition = self.condition_of(keyword..body);
                    self.condition(i, condition);
                    if condition.is_some() { self.close(body)? } else { keyword + 1 }
                }
                _ => i + 1,
            };
        }
        Ok(())
    }

    /// Returns the condition of an item with this head: of what owns, or of the law about the
    /// equality of a type that isn't compared elsewhere.
    fn condition_of(&self, head: Range<usize>) -> Option<&'static str> {
        let has = |name| head.clone().any(|j| self.at(j) == name);
        if OWNED.into_iter().any(has) {
            return Some(TREE);
        }
        let compared = INNER.iter().find(|(name, _)| has(name));
        compared.filter(|_| has("DelimitedEq")).map(|(_, condition)| *condition)
    }

    /// Returns the position after `pub`, and after what that is limited to, if they are here.
    pub(super) fn behind_visibility(&self, i: usize) -> Result<usize, Refused> {
        match (self.at(i), self.at(i + 1)) {
            ("pub", "(") => self.close(i + 1),
            ("pub", _) => Ok(i + 1),
            _ => Ok(i),
        }
    }

    /// Returns whether an item may begin here.
    fn is_item(&self, i: usize) -> bool {
        ["", "{", "}", ";", "]"].contains(&self.before(i, 1))
    }

    /// Returns the position of the first of these marks that isn't in brackets.
    fn first_of(&self, i: usize, marks: &[&str]) -> Result<usize, Refused> {
        let mut at = i;
        loop {
            at = match self.at(at) {
                "" => return Err((self.line(i), "an item without an end")),
                mark if marks.contains(&mark) => return Ok(at),
                "(" | "[" => self.close(at)?,
                _ => at + 1,
            };
        }
    }

    /// Puts a condition, if there is one, before the item that begins here.
    fn condition(&mut self, i: usize, condition: Option<&'static str>) {
        if let Some(condition) = condition {
            let item = &self.becomes[self.code[i]];
            self.becomes[self.code[i]] = format!("#[cfg({condition})] {item}").into();
        }
    }

    /// Puts its condition before a `use`, and parts it where not all of its names have the same.
    /// Returns the position after it.
    fn conditional_use(&mut self, i: usize, keyword: usize) -> Result<usize, Refused> {
        let behind = self.first_of(i, &[";"])?;
        let open = self.first_of(i, &["{", ";"])?;
        let of_path = |j: usize| PARTIAL.iter().find(|(name, _)| *name == self.at(j));
        let whole = (keyword..open).find_map(of_path).map(|(_, condition)| *condition);
        let first = if open < behind { open + 1 } else { behind - 1 };
        let listed: Vec<usize> = (first..behind).filter(|j| self.is_word(*j)).collect();
        let is_owned = |j: &usize| OWNED.contains(&self.at(*j));
        let owned: Vec<usize> = listed.iter().copied().filter(is_owned).collect();
        if owned.is_empty() || whole == Some(TREE) {
            self.condition(i, whole);
        } else if owned.len() == listed.len() {
            self.condition(i, Some(TREE));
        } else {
            self.condition(i, whole);
            let path: String = (i..open).map(|j| self.spaced(j)).collect();
            let parted: Vec<&str> = owned.iter().map(|j| self.at(*j)).collect();
            let parted = match parted[..] {
                [name] => name.to_owned(),
                _ => format!("{{{}}}", parted.join(", ")),
            };
            let rest = &self.becomes[self.code[i]];
            let both = format!("#[cfg({TREE})] {path}{parted}; {rest}");
            self.becomes[self.code[i]] = both.into();
            owned.into_iter().for_each(|j| self.leave_out_of_list(j));
        }
        Ok(behind + 1)
    }

    /// Parts the derives of a type that users see by a feature only: without it, what isn't `Copy`
    /// needs none. Returns the position after them.
    fn conditional_derive(&mut self, i: usize) -> Result<usize, Refused> {
        let behind = self.close(i + 1)?;
        let owner = self.public_type(behind)?;
        let Some((_, condition)) = INNER.iter().find(|(name, _)| *name == owner) else {
            return Ok(behind);
        };
        let names: Vec<&str> = (i + 4..behind - 2).step_by(2).map(|j| self.at(j)).collect();
        let is_copy = names.contains(&"Copy");
        let is_kept = |name: &&str| is_copy && ["Clone", "Copy"].contains(name);
        let (kept, others): (Vec<&str>, Vec<&str>) = names.into_iter().partition(is_kept);
        let kept = match kept[..] {
            [] => String::new(),
            _ => format!("#[derive({})] ", kept.join(", ")),
        };
        let others = others.join(", ");
        for t in self.code[i]..self.code[behind - 1] + 1 {
            self.becomes[t] = "".into();
        }
        self.put(i, format!("{kept}#[cfg_attr({condition}, derive({others}))]"));
        Ok(behind)
    }

    /// Returns a token of a path, with a blank after a keyword.
    fn spaced(&self, j: usize) -> String {
        let is_last = self.at(j + 1) == "use" || ["use", "in"].contains(&self.at(j));
        format!("{}{}", self.at(j), if is_last { " " } else { "" })
    }

    /// Leaves one of several names out of a list, with the comma after it or, if it is the last
    /// one, before it.
    fn leave_out_of_list(&mut self, j: usize) {
        let begin = if self.at(j + 1) == "," { j } else { j - 1 };
        self.leave_out(begin..begin + 2);
    }
}
