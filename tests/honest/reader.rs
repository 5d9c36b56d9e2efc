//! The closed list of ways in which a source, without clauses and ghost items, and its Rust may
//! differ. The tokens of the source say which way it is, and what the Rust has instead.

use super::allocators;
use super::erase::TREE;
use super::erase::known::{APART, DERIVED_TOO, INNER, NARROWED, OWNED, PARTIAL, TREES, WIDENED};
use super::lexer::{Token, lex};
use std::collections::BTreeMap;

/// The ways, each of which some source takes.
pub const WAYS: [&str; 26] = [
    "kept",
    "prelude",
    "attribute of the prover left out",
    "derive of Drop left out",
    "derive of a tree",
    "derive kept",
    "derive of more",
    "member that stays in this crate",
    "derive of an error",
    "derive_where is derive",
    "text of an error left out",
    "Display and Error of an error",
    "root of the crate",
    "pub(crate)",
    "iterator of members",
    "refusable clone",
    "allocator is Global",
    "method that is handed an allocator",
    "function that is handed an allocator",
    "main is pub",
    "function that the facade calls",
    "function that is inlined",
    "tree that is copied out of line",
    "module of a feature",
    "item of a feature",
    "import of a feature",
];

/// The crates in which items have conditions of their own.
const PARTED: [&str; 9] = [
    "wenc_base",
    "wenc_parts",
    "wenc_types",
    "wenc_canon",
    "wenc_sections",
    "wenc_builder",
    "wenc_read",
    "wenc_view",
    "wenc_list",
];

/// Whether items of this crate's module have conditions: those of a module of trees have its own.
pub fn has_conditions(crate_name: &str, module: &str) -> bool {
    PARTED.contains(&crate_name) && !PARTIAL.contains(&(module, TREE))
}

/// What both have next: the way, how many tokens of the source, and the tokens of the Rust.
struct Step {
    way: &'static str,
    old: usize,
    new: String,
}

fn step(way: &'static str, old: usize, new: impl Into<String>) -> Step {
    Step { way, old, new: new.into() }
}

/// Reads a source of this crate and module beside its Rust, and counts each way in which they part.
/// Refuses what is in no way, and where lines count, what is in another line.
pub fn read(
    names: (&str, &str),
    old: &str,
    new: &str,
    has_lines: bool,
    counts: &mut BTreeMap<&'static str, usize>,
) -> Result<(), String> {
    compare(names, &Old::new(old, counts), &lex(new), has_lines, counts)?;
    let lines = (old.lines().count(), new.lines().count());
    if lines.0 == lines.1 || !has_lines {
        Ok(())
    } else {
        Err(format!("{} lines became {}", lines.0, lines.1))
    }
}

/// The tokens of a source without what is left out of it with its allocators.
pub struct Old {
    tokens: Vec<Token>,
    /// The names of allocators, which become `Global` where they are left.
    allocators: Vec<String>,
    /// One of their names that a macro is passed.
    passed: Option<Token>,
}

impl Old {
    /// Reads a source, and counts what is left out of it.
    pub fn new(source: &str, counts: &mut BTreeMap<&'static str, usize>) -> Old {
        let mut tokens = lex(source);
        let allocators = allocators::names(&tokens);
        let passed = Self::passed(&tokens, &allocators).cloned();
        allocators::leave_out(&mut tokens, &allocators, counts);
        Old { tokens, allocators, passed }
    }

    fn passed<'a>(tokens: &'a [Token], names: &[String]) -> Option<&'a Token> {
        let end = |at| Source { tokens, at, ..Source::default() }.end_of_macro();
        let mut macros = (0..tokens.len()).filter_map(|at| Some(&tokens[at..end(at)?]));
        macros.find_map(|passed| passed.iter().find(|token| names.contains(&token.text)))
    }
}

/// Reads the tokens of a source beside those of its Rust, and counts each way in which they part.
/// Refuses what is in no way.
pub fn compare(
    (crate_name, module): (&str, &str),
    old: &Old,
    new: &[Token],
    has_lines: bool,
    counts: &mut BTreeMap<&'static str, usize>,
) -> Result<(), String> {
    if let Some(name) = &old.passed {
        return Err(format!("{}: a macro is passed the allocator {}", name.line, name.text));
    }
    let has_conditions = has_conditions(crate_name, module);
    let mut source = Source {
        crate_name,
        tokens: &old.tokens,
        allocators: &old.allocators,
        has_conditions,
        ..Source::default()
    };
    let mut rest = new;
    if !rest.is_empty() {
        // It stands in the line of what documents the first item.
        let line = has_lines.then_some(rest[0].line);
        take("prelude", line, "use crate::shim::prelude::*;", &mut rest)?;
        counts.insert("prelude", 1);
    }
    compare_tokens(&mut source, &mut rest, has_lines, counts)?;
    match rest.first() {
        Some(more) => Err(format!("{}: {:?} came in", more.line, more.text)),
        None => Ok(()),
    }
}

/// Takes what the tokens of a source become.
fn compare_tokens(
    source: &mut Source,
    rest: &mut &[Token],
    has_lines: bool,
    counts: &mut BTreeMap<&'static str, usize>,
) -> Result<(), String> {
    let mut begin = 0;
    while let Some(first) = source.tokens.get(source.at) {
        let line = has_lines.then_some(first.line);
        if let Some(end) = source.end_of_macro().filter(|_| source.at >= source.end_of_macro) {
            (begin, source.end_of_macro) = (source.at, end);
        }
        let is_in_macro = source.at < source.end_of_macro;
        if !is_in_macro {
            attributes(source, line, rest, counts)
                .map_err(|why| format!("{}: {why}", first.line))?;
        }
        let Step { way, old, new } = source.step();
        if is_in_macro && (way != "kept" || first.is_documented && source.at > begin) {
            return Err(format!("{}: a macro is passed something else", first.line));
        }
        take(way, line, &new, rest).map_err(|why| format!("{}: {why}", first.line))?;
        if !is_in_macro {
            *counts.entry(way).or_default() += 1;
        }
        source.at += old;
    }
    Ok(())
}

/// Takes the attributes that come in before a token: a condition, and that it is inlined.
fn attributes(
    source: &mut Source,
    line: Option<usize>,
    rest: &mut &[Token],
    counts: &mut BTreeMap<&'static str, usize>,
) -> Result<(), String> {
    if source.has_conditions {
        if let Some((way, condition)) = source.condition() {
            take(way, line, &condition, rest)?;
            *counts.entry(way).or_default() += 1;
        }
    }
    let is_inlined = rest.len() > 2 && rest[0].text == "#" && rest[2].text == "inline";
    if is_inlined && ["fn", "pub"].contains(&&*source.tokens[source.at].text) {
        let (way, attribute) = source.inlined();
        take(way, line, attribute, rest)?;
        *counts.entry(way).or_default() += 1;
    }
    Ok(())
}

/// Takes these tokens from the rest of the Rust. The first is in this line, if one is given.
fn take(way: &str, line: Option<usize>, wanted: &str, rest: &mut &[Token]) -> Result<(), String> {
    let wanted = if way == "kept" {
        vec![wanted.to_owned()]
    } else {
        lex(wanted).into_iter().map(|token| token.text).collect()
    };
    for (n, text) in wanted.iter().enumerate() {
        let Some((found, behind)) = rest.split_first().filter(|(f, _)| f.text == *text) else {
            let found = rest.first().map_or("", |found| &found.text);
            return Err(format!("{text:?} became {found:?} ({way})"));
        };
        if line.is_some_and(|line| n == 0 && found.line != line || found.line < line) {
            return Err(format!("it became line {} ({way})", found.line));
        }
        *rest = behind;
    }
    Ok(())
}

/// A source that is being read.
#[derive(Default)]
struct Source<'a> {
    crate_name: &'a str,
    tokens: &'a [Token],
    allocators: &'a [String],
    at: usize,
    /// Where an enum of errors ends, and what is written there.
    error: Option<(usize, String)>,
    /// Where an import ends that is parted from what owns.
    parted: usize,
    /// Where an item of a feature ends.
    owned: usize,
    /// Whether its items have conditions.
    has_conditions: bool,
    /// Where a macro's brackets end.
    end_of_macro: usize,
}

impl<'a> Source<'a> {
    /// The token so many after this.
    fn text(&self, ahead: usize) -> &'a str {
        self.tokens.get(self.at + ahead).map_or("", |token| &token.text)
    }

    /// The token so many before this.
    fn before(&self, back: usize) -> &'a str {
        self.at.checked_sub(back).map_or("", |at| &self.tokens[at].text)
    }

    fn stands(&self, words: &str) -> bool {
        self.stands_at(0, words)
    }

    fn stands_at(&self, ahead: usize, words: &str) -> bool {
        words.split(' ').enumerate().all(|(i, word)| self.text(ahead + i) == word)
    }

    /// How many tokens there are from the bracket so many after this to the one that closes it,
    /// with both.
    fn block(&self, ahead: usize) -> usize {
        let mut depth = 0;
        for len in 1.. {
            match self.text(ahead + len - 1) {
                "(" | "[" | "{" => depth += 1,
                ")" | "]" | "}" => depth -= 1,
                "" => return len,
                _ => {}
            }
            if depth == 0 {
                return len;
            }
        }
        unreachable!("it ends")
    }

    /// Where the macro ends whose name stands here, if it is called or defined with brackets.
    fn end_of_macro(&self) -> Option<usize> {
        let open = match (self.text(0), self.text(1)) {
            ("macro_rules", "!") => 3,
            ("if" | "match" | "while" | "return" | "in" | "else", _) => return None,
            (_, "!") => 2,
            _ => return None,
        };
        let is_name = self.text(0).starts_with(|c: char| c == '_' || c.is_alphabetic());
        let is_open = ["(", "[", "{"].contains(&self.text(open));
        (is_name && is_open).then(|| self.at + open + self.block(open))
    }

    /// What is compiled with a feature only: the condition of the item that begins here, after the
    /// imports that are parted from this one.
    fn condition(&mut self) -> Option<(&'static str, String)> {
        if !["", "{", "}", ";", "]"].contains(&self.before(1)) || self.at < self.owned {
            return None;
        }
        let keyword = match (self.text(0), self.text(1)) {
            ("pub", "(") => 1 + self.block(1),
            ("pub", _) => 1,
            _ => 0,
        };
        match self.text(keyword) {
            "mod" => {
                let of = PARTIAL.iter().find(|(name, _)| *name == self.text(keyword + 1))?;
                Some(("module of a feature", format!("#[cfg({})]", of.1)))
            }
            "use" => self.import(keyword),
            "enum" | "fn" | "impl" | "struct" | "type" => {
                let mut end = keyword;
                while !["{", ";", ""].contains(&self.text(end)) {
                    // the length of an array follows a semicolon
                    end += if self.text(end) == "[" { self.block(end) } else { 1 };
                }
                let has = |name: &str| (keyword..end).any(|at| self.text(at) == name);
                let inner = || INNER.iter().find(|(name, _)| has("DelimitedEq") && has(name));
                let condition = match OWNED.into_iter().any(has) {
                    true => TREE,
                    false => inner()?.1,
                };
                self.owned = self.at + end + self.block(end);
                Some(("item of a feature", format!("#[cfg({condition})]")))
            }
            _ => None,
        }
    }

    /// The condition of an import.
    fn import(&mut self, keyword: usize) -> Option<(&'static str, String)> {
        let way = "import of a feature";
        let end = (keyword..).find(|ahead| [";", ""].contains(&self.text(*ahead)))?;
        let open = (keyword..end).find(|ahead| self.text(*ahead) == "{");
        let path = keyword + 1..open.unwrap_or(end);
        let whole = PARTIAL.iter().find(|(name, _)| path.clone().any(|at| self.text(at) == *name));
        let names = open.map_or(end - 1..end, |open| open + 1..end - 1);
        let names: Vec<&str> = names.map(|at| self.text(at)).filter(|word| *word != ",").collect();
        let (owned, others): (Vec<&str>, Vec<&str>) =
            names.into_iter().partition(|name| OWNED.contains(name));
        let whole = whole.map(|(_, condition)| *condition);
        if owned.is_empty() || others.is_empty() || whole == Some(TREE) {
            let condition = whole.filter(|_| owned.is_empty() || whole == Some(TREE));
            let condition = condition.or_else(|| (!owned.is_empty()).then_some(TREE))?;
            return Some((way, format!("#[cfg({condition})]")));
        }
        self.parted = self.at + end;
        let begin: Vec<String> = (0..path.end).map(|at| self.renamed(at)).collect();
        let owned =
            if owned.len() == 1 { owned[0].into() } else { format!("{{{}}}", owned.join(",")) };
        let whole = whole.map_or(String::new(), |condition| format!("#[cfg({condition})]"));
        Some((way, format!("#[cfg({TREE})] {} {owned}; {whole}", begin.join(" "))))
    }

    /// A token of a path, with the root that it has in Rust.
    fn renamed(&self, ahead: usize) -> String {
        let at = self.at + ahead;
        let is_inner = at.checked_sub(1).is_some_and(|before| self.tokens[before].text == "::");
        let is_root = self.text(ahead + 1) == "::" && !is_inner;
        match self.text(ahead) {
            "crate" if is_root => format!("crate::proved::{}", self.crate_name),
            word => word.into(),
        }
    }

    /// A name, with its comma, that another import has.
    fn parted(&self) -> Option<Step> {
        let way = "import of a feature";
        let is_owned = |ahead| OWNED.contains(&self.text(ahead));
        match (self.text(0), self.text(1)) {
            _ if self.at >= self.parted => None,
            (_, ",") if is_owned(0) => Some(step(way, 2, "")),
            (",", _) if is_owned(1) && self.text(2) == "}" => Some(step(way, 2, "")),
            _ => None,
        }
    }

    fn step(&mut self) -> Step {
        if let Some((_, text)) = self.error.take_if(|(at, _)| *at == self.at) {
            return step("Display and Error of an error", 1, text);
        }
        let found = self.parted().or_else(|| self.attribute()).or_else(|| self.name());
        found.unwrap_or_else(|| step("kept", 1, self.text(0)))
    }

    /// What the function that begins here gets if it is inlined: a copy of some trees never is.
    fn inlined(&self) -> (&'static str, &'static str) {
        let (before, _) = self.tokens.split_at(self.at);
        let head = before.rsplit(|token| token.text == "impl").next().unwrap_or_default();
        let is_tree = |pair: &[Token]| pair[0].text == "for" && APART.contains(&&*pair[1].text);
        if self.stands("fn tree_of") && head.windows(2).any(is_tree) {
            ("tree that is copied out of line", "#[inline(never)]")
        } else {
            ("function that is inlined", "#[inline]")
        }
    }

    fn attribute(&mut self) -> Option<Step> {
        if self.text(0) != "#" {
            return None;
        }
        let open = if self.text(1) == "!" { 2 } else { 1 };
        let len = open + self.block(open);
        match self.text(open + 1) {
            "tactic" | "cycle" => Some(step("attribute of the prover left out", len, "")),
            "error" => Some(step("text of an error left out", len, "")),
            "derive_where" => {
                let shown = self.shown(len).replacen("_where", "", 1);
                Some(self.of_inner(step("derive_where is derive", len, shown)))
            }
            "derive" => {
                let derived = self.derive(len);
                Some(self.of_inner(derived))
            }
            _ => None,
        }
    }

    /// A derive, of which a type of a feature has a part by that only.
    fn of_inner(&self, step: Step) -> Step {
        let owner = self.public_type(step.old);
        let Some((_, condition)) = INNER.iter().find(|(name, _)| *name == owner) else {
            return step;
        };
        let Some((_, names)) = step.new.split_once('(').filter(|_| self.has_conditions) else {
            return step;
        };
        let names: Vec<&str> =
            names.split([' ', ',', ')', ']']).filter(|of| !of.is_empty()).collect();
        let is_copy = names.contains(&"Copy");
        let (kept, others): (Vec<&str>, Vec<&str>) =
            names.into_iter().partition(|of| is_copy && ["Clone", "Copy"].contains(of));
        let kept = if is_copy { format!("#[derive({})]", kept.join(",")) } else { String::new() };
        let new = format!("{kept} #[cfg_attr({condition}, derive({}))]", others.join(","));
        Step { new, ..step }
    }

    /// These tokens, with blanks between them.
    fn shown(&self, len: usize) -> String {
        (0..len).map(|ahead| self.text(ahead)).collect::<Vec<_>>().join(" ")
    }

    /// A derive of so many tokens.
    fn derive(&mut self, len: usize) -> Step {
        if self.stands("# [ derive ( Drop ) ]") {
            let is_compared = self.stands_at(len, "# [ derive_where");
            let more = if is_compared { "" } else { "PartialEq, Eq, " };
            return if TREES.contains(&self.public_type(len)) {
                step("derive of a tree", len, format!("#[derive(Clone, Debug, {more}Hash)]"))
            } else {
                step("derive of Drop left out", len, "")
            };
        }
        let shown = self.shown(len);
        let is_error = shown.ends_with(", Error ) ]");
        if is_error {
            self.error = Some(self.display(len));
        }
        let kept = shown.replace(", Error )", ")");
        let owner = self.public_type(len);
        match DERIVED_TOO.iter().find(|(name, _)| *name == owner) {
            Some((_, too)) => {
                step("derive of more", len, kept.replace(" ) ]", &format!(", {too} ) ]")))
            }
            None if is_error => step("derive of an error", len, kept),
            None => step("derive kept", len, kept),
        }
    }

    /// The name of the public type so many tokens after this, its other attributes first.
    fn public_type(&self, ahead: usize) -> &'a str {
        let mut item = ahead;
        while self.text(item) == "#" {
            item += 1 + self.block(item + 1);
        }
        if self.text(item) == "pub" { self.text(item + 2) } else { "" }
    }

    /// Where the enum ends that begins here, and what stands there: `Display` and `Error`.
    fn display(&self, item: usize) -> (usize, String) {
        let name = self.text(item + 2);
        let end = item + 3 + self.block(item + 3) - 1;
        let mut arms = String::new();
        for ahead in item..end {
            if self.stands_at(ahead, "# [ error (") {
                let (text, variant) = (self.text(ahead + 4), self.text(ahead + 7));
                let place = if text.contains("{place}") { "place, " } else { "" };
                arms += &format!("{name}::{variant} {{ {place}.. }} => write!(f, {text}),");
            }
        }
        let text = format!(
            "}} impl ::core::fmt::Display for {name} {{
                #[inline]
                fn fmt(&self, f: &mut ::core::fmt::Formatter<'_>) -> ::core::fmt::Result {{
                    match self {{ {arms} }}
                }}
            }}
            impl ::core::error::Error for {name} {{}}"
        );
        (self.at + end, text)
    }

    /// A name that is another one in Rust.
    fn name(&self) -> Option<Step> {
        let (word, next) = (self.text(0), self.text(1));
        match word {
            "(" if self.stands("( crate )") => {
                Some(step("pub(crate)", 3, format!("(in crate::proved::{})", self.crate_name)))
            }
            "pub"
                if NARROWED.contains(&(self.owner("impl"), self.text(2)))
                    || NARROWED.contains(&(self.owner("struct"), next)) =>
            {
                Some(step("member that stays in this crate", 1, "pub(crate)"))
            }
            "fn" if next == "main" => Some(step("main is pub", 2, "pub fn main")),
            "fn" if self.before(1) != "pub" && WIDENED.contains(&(self.crate_name, next)) => {
                Some(step("function that the facade calls", 1, "pub(crate) fn"))
            }
            _ if self.allocators.iter().any(|name| name == word) => {
                Some(step("allocator is Global", 1, "crate::shim::alloc::Handed"))
            }
            "Iterator" if next == "for" => {
                Some(step("iterator of members", 1, "crate::shim::iter::Members"))
            }
            "clone" if [".", "fn"].contains(&self.before(1)) && next == "(" => {
                Some(step("refusable clone", 1, "try_clone"))
            }
            "allocator" | "collect" | "extend_from_slice" | "insert" | "push" | "try_reserve"
                if [".", "fn"].contains(&self.before(1)) && next == "(" =>
            {
                Some(step("method that is handed an allocator", 1, format!("{word}_using")))
            }
            "new" | "with_capacity"
                if self.before(1) == "::" && ["Vec", "String"].contains(&self.before(2)) =>
            {
                Some(step("function that is handed an allocator", 1, format!("{word}_using")))
            }
            _ => self.root(),
        }
    }

    /// The type of the `impl` without a trait, or of the `struct`, that this stands in.
    fn owner(&self, keyword: &str) -> &'a str {
        let begins = |at: &usize| {
            let (before, _) = self.tokens.split_at(*at);
            let is_first = |b: &Token| [";", "}", "]", "pub"].contains(&&*b.text);
            self.tokens[*at].text == keyword && before.last().is_none_or(is_first)
        };
        let Some(at) = (0..self.at).rev().find(begins) else { return "" };
        let mut depth = 0;
        for token in &self.tokens[at + 1..] {
            match &*token.text {
                "<" => depth += 1,
                ">" => depth -= 1,
                word if depth == 0 => return word,
                _ => {}
            }
        }
        ""
    }

    /// The root of a path.
    fn root(&self) -> Option<Step> {
        let (word, root) = (self.text(0), self.renamed(0));
        (root != word).then(|| step("root of the crate", 1, root))
    }
}
