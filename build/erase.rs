//! Erases Rattle to Rust: one file in, one file out, each token in its line.
//!
//! Rattle is Rust with contracts. Contracts are for the prover only, so a file without them is
//! Rust, except for a few names with another meaning. The eraser
//!
//! - *leaves out*: clauses (`requires`, `ensures`), `ghost` items and fields with their comments,
//!   the examples of documentation (they are Rattle) with the sentence before one that ends in a
//!   colon, allocators among parameters and what stands for these, the attributes `tactic`, `cycle`
//!   and `error`, and `Drop` among derives;
//! - *renames*: `crate`, to the module of `crate::proved`; other allocators to the type `Handed`;
//!   `clone`, which can fail in Rattle, to `try_clone`; the `Iterator` of an `impl` to `Members`,
//!   which has no more than Rattle's; the calls in [`ALLOCATING`] and [`MAKING`], by appending
//!   `_using`; `derive_where` to `derive`; `pub` of the methods and fields that aren't for users
//!   ([`NARROWED`]) to `pub(crate)`;
//! - *adds*: the import of the shim's prelude, before a file's first item; the derives that
//!   users of Rust expect of a type ([`known::TREES`], [`known::DERIVED_TOO`]); `Display` and
//!   `Error` after an enum that derives `Error`; `pub` to `main`; `pub(crate)` to the functions in
//!   [`WIDENED`]; `#[inline]` to the functions in [`INLINED`], but `#[inline(never)]` to what
//!   copies the trees in [`APART`]; conditions to the items that exist only with a feature
//!   ([`with_conditions`]);
//! - *refuses*: a change between the brackets of a macro, which may do anything with a token; an
//!   item with the name of an allocator; an import that gives a name or brings all; a name that the
//!   eraser brings in, and another `Iterator`; and everything else that it doesn't know, such as a
//!   module with a body. No crate is better than one that does something else than was proved.
//!
//! All other names stay, and mean what they mean in the shim's prelude, which has Rattle's names
//! for `std`, the other crates, `Clone`, `Drop`, `format` and so on. No others are in scope, since
//! `crates.rs` says `no_implicit_prelude`: not what a name means in Rust, nor the methods of traits
//! that only Rust's types have. `gate/tricks` tries to get by all this.
//!
//! `gate/erased` compares what is left without clauses and ghost items with what the prover reads
//! as code. `tests/honest` compares that with the Rust, with a lexer of its own.

#[path = "erase/allocators.rs"]
mod allocators;
#[path = "erase/antt.rs"]
mod antt;
#[path = "erase/attributes.rs"]
mod attributes;
#[path = "erase/conditions.rs"]
mod conditions;
#[path = "erase/known.rs"]
pub mod known;
#[path = "erase/lexer.rs"]
mod lexer;

#[allow(unused_imports, reason = "the build script has crates of features")]
pub use conditions::{TREE, WALK, is_owned};
use known::{
    ALLOCATING, APART, BROUGHT, DECLARING, INLINED, KEYWORDS, MAKING, NARROWED, OWNED, WIDENED,
};
use lexer::{Kind, Token, tokens};
use std::borrow::Cow;

/// The number of a line, and what is wrong in it.
pub type Refused = (usize, &'static str);

/// Erases a file of the crate `name`.
pub fn erase(name: &str, source: &str) -> Result<String, Refused> {
    let tokens = tokens(source)?;
    let mut eraser = Eraser::new(name, &tokens);
    eraser.run()?;
    Ok(eraser.finish())
}

/// Leaves out the clauses and the ghost items of a file. Of these only the line ends remain, so
/// that every other token keeps its line.
#[allow(dead_code, reason = "the build script erases more")]
pub fn without_ghosts(source: &str) -> Result<String, Refused> {
    let mut whole = String::new();
    for token in tokens(source)? {
        match token.kind {
            Kind::Ghost => whole += &"\n".repeat(token.text.matches('\n').count()),
            _ => whole += token.text,
        }
    }
    Ok(whole)
}

/// Puts a condition before each item of an erased file that exists only with a feature: the modules
/// in [`known::PARTIAL`], what names a type in [`known::OWNED`] in its head, and imports of these,
/// which are parted from the others.
pub fn with_conditions(rust: &str) -> Result<String, Refused> {
    let tokens = tokens(rust)?;
    let mut eraser = Eraser::new("", &tokens);
    eraser.conditions()?;
    eraser.keeps_macros()?;
    Ok(eraser.finish())
}

/// A file that is being erased.
struct Eraser<'a> {
    name: &'a str,
    tokens: &'a [Token<'a>],
    /// The indices of the tokens other than blanks, comments and ghost ones. Each `i` below indexes
    /// this.
    code: Vec<usize>,
    /// The text that each token becomes.
    becomes: Vec<Cow<'a, str>>,
}

impl<'a> Eraser<'a> {
    fn new(name: &'a str, tokens: &'a [Token<'a>]) -> Self {
        let is_code =
            |t: &usize| !matches!(tokens[*t].kind, Kind::Space | Kind::Comment | Kind::Ghost);
        Eraser {
            name,
            tokens,
            code: (0..tokens.len()).filter(is_code).collect(),
            becomes: tokens.iter().map(|token| Cow::Borrowed(token.text)).collect(),
        }
    }

    /// Returns the text of a token of the code, which is empty before the first and after the last.
    fn at(&self, i: usize) -> &'a str {
        self.code.get(i).map_or("", |&t| self.tokens[t].text)
    }

    /// Returns the text of the token `back` tokens before this one.
    fn before(&self, i: usize, back: usize) -> &'a str {
        i.checked_sub(back).map_or("", |i| self.at(i))
    }

    /// Returns whether these words, separated by blanks, are the tokens from `i` on.
    fn stands(&self, i: usize, words: &str) -> bool {
        words.split(' ').enumerate().all(|(n, word)| self.at(i + n) == word)
    }

    fn line(&self, i: usize) -> usize {
        self.code.get(i).map_or(0, |&t| self.tokens[t].line)
    }

    /// Returns whether the token is a word.
    fn is_word(&self, i: usize) -> bool {
        self.code.get(i).is_some_and(|&t| self.tokens[t].kind == Kind::Word)
    }

    /// Replaces a token.
    fn put(&mut self, i: usize, text: impl Into<Cow<'a, str>>) {
        self.becomes[self.code[i]] = text.into();
    }

    /// Leaves these tokens out, with the blank before them.
    fn leave_out(&mut self, range: std::ops::Range<usize>) {
        let (first, last) = (self.code[range.start], self.code[range.end - 1]);
        let is_led = first > 0 && self.tokens[first - 1].kind == Kind::Space;
        self.becomes[first - usize::from(is_led)..=last].fill("".into());
    }

    /// Returns the position after the bracket that closes the one at `i`.
    fn close(&self, i: usize) -> Result<usize, Refused> {
        let mut depth = 0;
        for j in i..self.code.len() {
            match self.at(j) {
                "(" | "[" | "{" => depth += 1,
                ")" | "]" | "}" => depth -= 1,
                _ => {}
            }
            if depth == 0 {
                return Ok(j + 1);
            }
        }
        Err((self.line(i), "a bracket without an end"))
    }

    fn run(&mut self) -> Result<(), Refused> {
        for t in 0..self.tokens.len() {
            if self.tokens[t].kind == Kind::Ghost {
                self.ghost(t)?;
            }
        }
        self.examples()?;
        self.allocators()?;
        let mut i = 0;
        while i < self.code.len() {
            let is_left_out = self.becomes[self.code[i]].is_empty();
            i = match self.at(i) {
                _ if is_left_out => i + 1,
                "#" => self.attribute(i)?,
                _ => {
                    self.token(i)?;
                    i + 1
                }
            };
        }
        self.keeps_macros()?;
        self.bring_prelude();
        Ok(())
    }

    /// Erases a token outside of attributes.
    fn token(&mut self, i: usize) -> Result<(), Refused> {
        match self.at(i) {
            "fn" if self.at(i + 1) == "main" => self.put(i, "pub fn"),
            "fn" if self.is_widened(i) => self.put(i, "pub(crate) fn"),
            word @ ("fn" | "pub") if self.is_inlined(i) => {
                let attribute = if self.is_apart(i) { "#[inline(never)]" } else { "#[inline]" };
                self.put(i, format!("{attribute} {word}"));
            }
            "mod" if self.at(i + 2) != ";" => {
                return Err((self.line(i), "a module that is no file"));
            }
            "extern" => return Err((self.line(i), "an `extern`")),
            "unsafe" => return Err((self.line(i), "an `unsafe`")),
            "pub" if self.is_narrowed(i) => self.put(i, "pub(crate)"),
            "Iterator" if self.at(i + 1) == "for" => self.put(i, "crate::shim::iter::Members"),
            "Iterator" if DECLARING.contains(&self.before(i, 1)) => {
                return Err((self.line(i), "another `Iterator`"));
            }
            "clone" if self.is_method(i) => self.put(i, "try_clone"),
            word if self.goes_on(i) && (word == "clone" || ALLOCATING.contains(&word)) => {
                return Err((self.line(i), "a method that is named by its path"));
            }
            call if self.is_allocating(i) => self.put(i, format!("{call}_using")),
            word if word.ends_with("_using") || BROUGHT.contains(&word) => {
                return Err((self.line(i), "a name that the eraser brings in"));
            }
            "use" => self.import(i)?,
            "crate" => self.root(i)?,
            ":" if self.at(i + 1) == ":" => self.path(i)?,
            _ => {}
        }
        Ok(())
    }

    /// Returns whether the word is the name of a method that is called or defined.
    fn is_method(&self, i: usize) -> bool {
        ["fn", "."].contains(&self.before(i, 1)) && self.at(i + 1) == "("
    }

    /// Returns whether the word is the name of a call that takes an allocator in Rattle only.
    fn is_allocating(&self, i: usize) -> bool {
        let is_made = self.goes_on(i) && ["Vec", "String"].contains(&self.before(i, 3));
        is_made && MAKING.contains(&self.at(i))
            || self.is_method(i) && ALLOCATING.contains(&self.at(i))
    }

    /// Returns whether the word continues a path.
    fn goes_on(&self, i: usize) -> bool {
        self.before(i, 1) == ":" && self.before(i, 2) == ":"
    }

    /// Returns whether a method or a field begins here that stays in this crate.
    fn is_narrowed(&self, i: usize) -> bool {
        let (keyword, name) = match (self.at(i + 1), self.at(i + 2)) {
            ("fn", method) => ("impl", method),
            (field, ":") => ("struct", field),
            _ => return false,
        };
        let is_item = |j: &usize| matches!(self.before(*j, 1), "" | ";" | "]" | "}" | "pub");
        let mut owners = (0..i).rev().filter(|j| self.at(*j) == keyword).filter(is_item);
        owners.next().is_some_and(|j| NARROWED.contains(&(self.owner(j), name)))
    }

    /// Returns whether a private function begins here that the facade calls.
    fn is_widened(&self, i: usize) -> bool {
        let is_private = !["pub", ")"].contains(&self.before(i, 1));
        is_private && WIDENED.contains(&(self.name, self.at(i + 1)))
    }

    /// Returns whether a function begins here that is inlined, and that has no attribute in Rust.
    fn is_inlined(&self, i: usize) -> bool {
        let is_left = |j: &usize| !self.becomes[self.code[*j]].is_empty();
        let last = (0..i).rev().find(is_left).map_or("", |j| self.at(j));
        let keyword = self.behind_visibility(i).unwrap_or(i);
        let name = if self.at(keyword) == "fn" { self.at(keyword + 1) } else { "" };
        let block = (0..i).rev().find(|j| ["impl", "trait"].contains(&self.at(*j)));
        // The encodings of trees aren't on the way of a call.
        let is_kept = |j| {
            let mut head = (j..i).map(|j| self.at(j)).take_while(|word| *word != "{");
            let is_tree = name == "encode" && head.any(|word| OWNED.contains(&word));
            self.at(j) == "impl" && !is_tree
        };
        INLINED.contains(&name) && ["{", "}", ";", ""].contains(&last) && block.is_none_or(is_kept)
    }

    /// Returns whether a function begins here that copies a tree out of line.
    fn is_apart(&self, i: usize) -> bool {
        let head = (0..i).rev().take_while(|j| !["impl", "trait"].contains(&self.at(*j)));
        let is_tree = |j| self.before(j, 1) == "for" && APART.contains(&self.at(j));
        self.at(i + 1) == "tree_of" && head.into_iter().any(is_tree)
    }

    /// Returns the name of the type whose members are in an `impl` or a `struct`, or of the trait.
    fn owner(&self, i: usize) -> &'a str {
        let mut depth = 0;
        for j in i + 1..self.code.len() {
            match self.at(j) {
                "<" => depth += 1,
                ">" if self.before(j, 1) != "-" => depth -= 1,
                word if depth == 0 => return word,
                _ => {}
            }
        }
        ""
    }

    /// Leaves out the examples of documentation, with the sentence before one that ends in a colon.
    fn examples(&mut self) -> Result<(), Refused> {
        let mut begun = None;
        for (t, token) in self.tokens.iter().enumerate() {
            if token.kind == Kind::Comment {
                let is_fence = token.text.contains("```");
                let is_doc = token.text.starts_with("///") || token.text.starts_with("//!");
                if (is_fence || begun.is_some()) && !is_doc {
                    return Err((token.line, "an example outside of documentation"));
                }
                if is_fence || begun.is_some() {
                    self.becomes[t] = Cow::Borrowed("");
                }
                if is_fence {
                    begun = if begun.is_none() { Some(token.line) } else { None };
                }
                if is_fence && begun.is_some() {
                    self.introduction(t);
                }
            }
        }
        begun.map_or(Ok(()), |line| Err((line, "an example without an end")))
    }

    /// Leaves out the sentence that ends in a colon before the example that begins at `fence`.
    fn introduction(&mut self, fence: usize) {
        let tokens = self.tokens;
        let is_doc = |t: &usize| [Kind::Space, Kind::Comment].contains(&tokens[*t].kind);
        let lines = (0..fence).rev().take_while(is_doc);
        let mut lines = lines.filter(|t| tokens[*t].kind == Kind::Comment).peekable();
        while lines.next_if(|t| ["///", "//!"].contains(&tokens[*t].text)).is_some() {}
        if !lines.peek().is_some_and(|t| tokens[*t].text.ends_with(':')) {
            return;
        }
        for t in lines {
            let text = tokens[t].text;
            let is_before = text.ends_with('.') || ["///", "//!"].contains(&text);
            let end = if is_before { text.len() } else { text.rfind(". ").map_or(0, |at| at + 1) };
            self.becomes[t] = Cow::Borrowed(&text[..end]);
            if end > 0 {
                return;
            }
        }
    }

    /// Leaves out a clause, or a ghost item with its documentation.
    fn ghost(&mut self, t: usize) -> Result<(), Refused> {
        self.becomes[t] = Cow::Borrowed("");
        let is_item = self.tokens[t].text.starts_with("ghost");
        for before in (0..t).rev().take_while(|_| is_item) {
            match self.tokens[before].kind {
                Kind::Space => {}
                Kind::Comment if self.tokens[before].text.starts_with("///") => {
                    self.becomes[before] = Cow::Borrowed("");
                }
                Kind::Comment | Kind::Ghost => break,
                _ if ["{", "}", ",", ";", "]"].contains(&self.tokens[before].text) => break,
                _ => return Err((self.tokens[t].line, "a word in front of a ghost item")),
            }
        }
        Ok(())
    }

    /// Refuses a path that begins with `::`, which would refer to Rust's crates.
    fn path(&self, i: usize) -> Result<(), Refused> {
        let last = self.before(i, 1);
        let is_inside = last == ">" || self.is_word(i.wrapping_sub(1)) && !KEYWORDS.contains(&last);
        if is_inside { Ok(()) } else { Err((self.line(i), "a path that begins with `::`")) }
    }

    /// Erases the root of a path in this crate.
    fn root(&mut self, i: usize) -> Result<(), Refused> {
        if self.stands(i.wrapping_sub(1), "( crate )") {
            self.put(i, format!("in crate::proved::{}", self.name));
        } else if self.stands(i + 1, ": :") {
            self.put(i, format!("crate::proved::{}", self.name));
        } else {
            return Err((self.line(i), "a `crate` that is no path's root"));
        }
        Ok(())
    }

    /// Refuses an import of all names, one that gives a name, and one of another `Iterator`.
    fn import(&self, i: usize) -> Result<(), Refused> {
        let mut names = (i..self.code.len()).take_while(|j| self.at(*j) != ";");
        match names.find(|j| ["*", "as", "Iterator"].contains(&self.at(*j))) {
            Some(j) => Err((self.line(j), "an import that is not known")),
            None => Ok(()),
        }
    }

    /// Refuses a file if something becomes something else between the brackets of a macro, which
    /// may do with each token as it likes, or if there is what may be a token for it or not.
    fn keeps_macros(&self) -> Result<(), Refused> {
        for i in (0..self.code.len()).filter(|i| self.at(*i) == "!") {
            let open = if self.before(i, 1) == "macro_rules" { i + 2 } else { i + 1 };
            let is_called =
                self.is_word(i.wrapping_sub(1)) && !KEYWORDS.contains(&self.before(i, 1));
            if !is_called || !["(", "[", "{"].contains(&self.at(open)) {
                continue;
            }
            let end = self.code[self.close(open)? - 1];
            for t in self.code[open]..end {
                let (token, becomes) = (&self.tokens[t], &self.becomes[t]);
                let is_kept = match token.kind {
                    Kind::Space => true,
                    Kind::Comment => !["///", "//!"].iter().any(|d| token.text.starts_with(d)),
                    Kind::Ghost => false,
                    _ => becomes == token.text,
                };
                if !is_kept {
                    return Err((token.line, "a change in what a macro is passed"));
                }
            }
        }
        Ok(())
    }

    /// Brings the shim's names into scope, before the first item.
    fn bring_prelude(&mut self) {
        let is_front = |t: &usize| match self.tokens[*t].kind {
            Kind::Space | Kind::Ghost => true,
            Kind::Comment => !self.tokens[*t].text.starts_with("///"),
            _ => self.becomes[*t].is_empty(),
        };
        if let Some(t) = (0..self.tokens.len()).find(|t| !is_front(t)) {
            let first = &self.becomes[t];
            self.becomes[t] = format!("use crate::shim::prelude::*; {first}").into();
        }
    }

    /// Concatenates the tokens. Of those left out, only the line ends remain.
    fn finish(self) -> String {
        let mut whole = String::new();
        for (token, becomes) in self.tokens.iter().zip(&self.becomes) {
            if becomes.is_empty() || token.kind == Kind::Space {
                push_blank(&mut whole, token, becomes);
            } else {
                whole += becomes;
            }
        }
        whole
    }
}

/// Appends the line ends of a token, without the blanks before them, then the last line of what a
/// blank becomes.
fn push_blank(whole: &mut String, token: &Token<'_>, becomes: &str) {
    let ends = token.text.matches('\n').count();
    if ends > 0 {
        whole.truncate(whole.trim_end_matches([' ', '\t']).len());
        *whole += &"\n".repeat(ends);
    }
    *whole += becomes.rsplit('\n').next().unwrap_or("");
}
