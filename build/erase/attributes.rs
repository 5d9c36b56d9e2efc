//! Attributes, and their replacements.

use super::known::{ATTRIBUTES, DERIVED, DERIVED_TOO, OF_COMPARED_TREES, OF_TREES, TREES};
use super::{Eraser, Refused};

impl Eraser<'_> {
    /// Erases an attribute, whose `#` is here. Returns the position after it.
    pub(super) fn attribute(&mut self, i: usize) -> Result<usize, Refused> {
        let is_inner = self.at(i + 1) == "!";
        let open = if is_inner { i + 2 } else { i + 1 };
        let end = self.close(open)?;
        let is_known = ATTRIBUTES
            .iter()
            .any(|known| end - i == known.split(' ').count() && self.stands(i, known));
        match (self.at(open + 1), self.at(open + 2)) {
            ("tactic", "(") => self.leave_out(i..end),
            ("cycle", "(") if !is_inner => self.leave_out(i..end),
            ("derive", "(") if !is_inner => self.derive(i, end)?,
            ("derive_where", "(") if !is_inner => {
                self.derived(i, end)?;
                self.put(i + 2, "derive");
            }
            _ if is_known => {}
            _ => return Err((self.line(i), "an attribute that is not known")),
        }
        Ok(end)
    }

    /// Returns the positions of the names in a derive, whose `#` is at `i`. They are those that
    /// Rust has, and `Drop` and `Error`.
    fn derived(&self, i: usize, end: usize) -> Result<Vec<usize>, Refused> {
        let names: Vec<usize> = (i + 4..end - 2).step_by(2).collect();
        let is_known = |j: &usize| {
            let name = self.at(*j);
            let is_name = DERIVED.contains(&name) || name == "Drop" || name == "Error";
            is_name && [",", ")"].contains(&self.at(*j + 1))
        };
        match names.iter().find(|j| !is_known(j)) {
            Some(&j) => Err((self.line(j), "a derive that is not known")),
            None if self.at(i + 3) != "(" || self.at(end - 2) != ")" || names.is_empty() => {
                Err((self.line(i), "a derive that is not known"))
            }
            None => Ok(names),
        }
    }

    /// Leaves out of a derive what Rust doesn't have, and adds what users of Rust expect. `Error`
    /// becomes an impl after the enum.
    fn derive(&mut self, i: usize, end: usize) -> Result<(), Refused> {
        let names = self.derived(i, end)?;
        if names.len() == 1 && self.at(i + 4) == "Drop" {
            match self.derived_by_trees(end)? {
                None => self.leave_out(i..end),
                Some(derived) => self.put(i + 4, derived),
            }
            return Ok(());
        }
        let owner = self.public_type(end)?;
        if let Some((_, too)) = DERIVED_TOO.iter().find(|(name, _)| *name == owner) {
            self.put(end - 2, format!(", {too})"));
        }
        for j in names {
            match self.at(j) {
                "Error" if self.at(j - 1) == "," => {
                    self.leave_out(j - 1..j + 1);
                    self.error(end)?;
                }
                "Drop" | "Error" => return Err((self.line(j), "a derive that is not known")),
                _ => {}
            }
        }
        Ok(())
    }

    /// Returns what the type after this derives instead of `Drop`: if it is a tree, what it doesn't
    /// derive already.
    fn derived_by_trees(&self, i: usize) -> Result<Option<&'static str>, Refused> {
        let is_compared = self.stands(i, "# [ derive_where");
        let derived = if is_compared { OF_COMPARED_TREES } else { OF_TREES };
        Ok(TREES.contains(&self.public_type(i)?).then_some(derived))
    }

    /// Returns the name of the public type that begins here with its other attributes.
    pub(super) fn public_type(&self, i: usize) -> Result<&str, Refused> {
        let mut item = i;
        while self.at(item) == "#" {
            item = self.close(item + 1)?;
        }
        let is_type = ["struct", "enum"].contains(&self.at(item + 1));
        Ok(if self.at(item) == "pub" && is_type { self.at(item + 2) } else { "" })
    }

    /// Writes `Display` and `Error` after the enum of errors that begins here.
    fn error(&mut self, i: usize) -> Result<(), Refused> {
        if !self.stands(i, "pub enum") || self.at(i + 3) != "{" {
            return Err((self.line(i), "an error that is no enum"));
        }
        let (name, open) = (self.at(i + 2), i + 3);
        let end = self.close(open)?;
        let mut arms = String::new();
        let mut variants = open + 1;
        while variants < end - 1 {
            let (arm, next) = self.arm(name, variants)?;
            arms += &arm;
            variants = next;
        }
        let formatter = "f: &mut ::core::fmt::Formatter<'_>) -> ::core::fmt::Result";
        let display = format!(
            "impl ::core::fmt::Display for {name} {{ #[inline] fn fmt(&self, {formatter} \
             {{ match self {{{arms} }} }} }}"
        );
        self.put(end - 1, format!("}} {display} impl ::core::error::Error for {name} {{}}"));
        Ok(())
    }

    /// Returns the arm of `Display` for the variant that begins here with its message, and the
    /// position of the next variant.
    fn arm(&mut self, name: &str, i: usize) -> Result<(String, usize), Refused> {
        let behind = self.close(i + 1)?;
        let (text, variant) = (self.at(i + 4), self.at(behind));
        let is_text = text.starts_with('"') && self.stands(i + 5, ") ]");
        if !self.stands(i, "# [ error (") || !is_text || !self.is_word(behind) {
            return Err((self.line(i), "a variant of an error without its text"));
        }
        let fields: String = holes(text).map(|field| format!("{field}, ")).collect();
        self.leave_out(i..behind);
        let is_alone = [",", "}"].contains(&self.at(behind + 1));
        let end = if is_alone { behind + 1 } else { self.close(behind + 1)? };
        let next = if self.at(end) == "," { end + 1 } else { end };
        Ok((format!(" {name}::{variant} {{ {fields}.. }} => write!(f, {text}),"), next))
    }
}

/// Returns the names in the placeholders of a format string.
fn holes(text: &str) -> impl Iterator<Item = &str> {
    text.split('{').skip(1).filter_map(|hole| hole.split_once('}')).map(|(field, _)| field)
}
