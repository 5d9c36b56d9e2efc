//! Each name of the proved sources that a page has is declared there: a clause, a function, a type
//! or a variant of one, or a definition. Of a path with `::`, one file declares the last name, and
//! has the others in its own path, declares them too or implements something for them.

use super::{TOP, gathered, outside_of_code};
use std::collections::BTreeSet;
use std::{fs, path::Path};

/// The pages about the proved sources.
const PAGES: [&str; 4] =
    ["docs/DEFINITIONS.md", "docs/FORMAT.md", "docs/PROVED.md", "docs/SCRIPTS.md"];

/// Names of Rattle, of its libraries, of the facade, and of a text's own.
const OTHER: &str = "AllocError Global IsFinite NoMemory Ok String bool can_next codes decimal es \
    f proofs thiserror tt type";

/// What precedes the name in a line of the code, after `pub`.
const ITEMS: [&str; 8] =
    ["const ", "enum ", "final fn ", "fn ", "mod ", "struct ", "trait ", "type "];

/// A source: the parts of its path, the names that it declares, and those in its `impl`s.
struct Source {
    path: BTreeSet<String>,
    names: BTreeSet<String>,
    impls: BTreeSet<String>,
}

/// The identifier at the beginning, and what follows it.
fn identifier(text: &str) -> Option<(&str, &str)> {
    let end = text.find(|c: char| !(c.is_alphanumeric() || "_'".contains(c)));
    let (name, rest) = text.split_at(end.unwrap_or(text.len()));
    (!name.is_empty()).then_some((name, rest))
}

/// The name that a line of the code declares.
fn in_code(line: &str, is_enum: bool) -> Option<&str> {
    let line = line.trim_start();
    let words = ["ensures ", "ensures* ", "requires ", "requires* "];
    if let Some(clause) = words.iter().find_map(|word| line.strip_prefix(word)) {
        return identifier(clause).filter(|(_, rest)| rest.starts_with(" {")).map(|(name, _)| name);
    }
    if let Some(member) = line.strip_prefix("ghost ") {
        let (name, rest) = identifier(member)?;
        return (rest.starts_with(':') || rest.starts_with(" =")).then_some(name);
    }
    let public = line.strip_prefix("pub(crate) ").or_else(|| line.strip_prefix("pub "));
    let item = public.unwrap_or(line);
    if let Some(rest) = ITEMS.iter().find_map(|word| item.strip_prefix(word)) {
        return identifier(rest).map(|(name, _)| name);
    }
    let (name, rest) = identifier(item)?;
    let is_field = public.is_some() && rest.starts_with(':');
    let is_variant = is_enum && name.starts_with(|c: char| c.is_ascii_uppercase());
    (is_field || is_variant && rest.starts_with([',', '(', ' '])).then_some(name)
}

/// The name that a line of the definitions declares.
fn in_definitions(line: &str, is_data: bool) -> Option<&str> {
    let inner = line.trim_start();
    let open = ["abbrev ", "unfoldable "].iter().find_map(|word| inner.strip_prefix(word));
    if let Some(public) = open.unwrap_or(inner).strip_prefix("pub ") {
        let types = ["data ", "record "].iter().find_map(|word| public.strip_prefix(word));
        let is_other = ["mod ", "open ", "use "].iter().any(|word| public.starts_with(word));
        return identifier(types.unwrap_or(public)).filter(|_| !is_other).map(|(name, _)| name);
    }
    let (name, rest) = identifier(inner)?;
    (is_data && inner != line && rest.starts_with(" :")).then_some(name)
}

impl Source {
    /// Reads the names that a file of this path declares.
    fn new(path: &str, text: &str) -> Self {
        let is_code = path.ends_with(".rt");
        let (mut names, mut is_inside) = (BTreeSet::new(), false);
        for line in text.lines() {
            if !line.is_empty() && !line.starts_with(' ') {
                let word = if is_code { "enum " } else { "data " };
                is_inside = line.contains(word) && !line.starts_with("//");
            }
            let name =
                if is_code { in_code(line, is_inside) } else { in_definitions(line, is_inside) };
            names.extend(name.map(str::to_owned));
        }
        let stem = path.rsplit_once('.').map_or(path, |(stem, _)| stem);
        let path = stem.split('/').map(str::to_owned).collect();
        let impls = text.lines().filter(|line| is_code && line.starts_with("impl"));
        let impls = impls.flat_map(|line| line.split(|c: char| !c.is_alphanumeric() && c != '_'));
        Self { path, names, impls: impls.map(str::to_owned).collect() }
    }

    /// Whether this file declares what a path names.
    fn declares(&self, path: &[&str]) -> bool {
        let Some((name, front)) = path.split_last() else { return false };
        let is_own = front.is_empty() && self.path.contains(*name);
        let has = |part: &&str| {
            [&self.path, &self.names, &self.impls].iter().any(|names| names.contains(*part))
        };
        (is_own || self.names.contains(*name)) && front.iter().all(has)
    }
}

/// The names in backquotes on a page, with their paths.
fn named(page: &str) -> impl Iterator<Item = &str> {
    let words = outside_of_code(page).flat_map(|line| line.split('`').skip(1).step_by(2));
    words.filter(|word| {
        word.split("::").all(|part| {
            identifier(part).is_some_and(|(_, rest)| rest.is_empty())
                && !part.starts_with(|c: char| c.is_ascii_digit())
        })
    })
}

/// The names on a page that no source declares.
fn undeclared<'a>(page: &'a str, sources: &[Source]) -> Vec<&'a str> {
    let is_declared = |name: &&str| {
        let path: Vec<&str> = name.split("::").collect();
        OTHER.split(' ').any(|other| other == *name)
            || sources.iter().any(|source| source.declares(&path))
    };
    named(page).filter(|name| !is_declared(name)).collect()
}

#[test]
fn each_name_on_a_page_is_declared() {
    let (tree, pages) = gathered();
    let is_source = |path: &&String| {
        let parts: Vec<&str> = path.split('/').collect();
        matches!(parts[..], ["crates", _, "src" | "specs", ..])
            && (path.ends_with(".rt") || path.ends_with(".antt"))
    };
    let read = |path: &String| {
        let text = fs::read_to_string(Path::new(TOP).join(path));
        Source::new(path, &text.expect("a source"))
    };
    let sources: Vec<Source> = tree.0.iter().filter(is_source).map(read).collect();
    let (mut count, mut unknown) = (0, Vec::new());
    for (page, text) in &pages {
        let is_calling = page.starts_with("crates/") && page.ends_with("/CALLING.md");
        if PAGES.contains(&page.as_str()) || is_calling {
            count += named(text).count();
            unknown.extend(undeclared(text, &sources).iter().map(|name| format!("{page}: {name}")));
        }
    }
    assert!(unknown.is_empty(), "no source declares\n{}", unknown.join("\n"));
    assert!(count > 400, "only {count} names");
}

#[test]
fn what_is_not_declared_is_found() {
    let code = "/// A type.\npub enum One<'a> {\n    /// Text.\n    Text(&'a str),\n    Two,\n}\n\
        pub(crate) struct Three {\n    pub field: u32,\n    hidden: u32,\n}\n\
        impl Three {\n    ghost seen = { a };\n    pub fn four(&self) -> u32\n        \
        requires fits { b }\n        ensures* kept { c }\n        ensures { d }\n    {\n        \
        Seven(8)\n    }\n}\nimpl From<Two> for Twelve {}\n";
    let definitions = "-- A definition: five.\nabbrev pub Five : Type 0\nFive = Unit\n\n\
        pub data Six : Type 0 where\n  Seven : Six\n\npub record Eight : Type 0 where\n  \
        pub ninth : Six\n\npub use Rattle.a.{Tenth}\nprivate : Six\n";
    let sources = [
        Source::new("crates/a/src/b/c.rt", code),
        Source::new("crates/a/specs/D.antt", definitions),
    ];
    let there = "`One` `Text` `One::Two` `Three` `field` `seen` `four` `a::b::c::four`\n\
        `Three::four` `Twelve::four` `fits` `kept` `Five` `Six` `Seven` `Eight` `ninth`\n\
        `D` `D::Five` `c` `a b` `../x` `8` `Ok`\n```\n`eleven`\n```\n";
    assert_eq!(undeclared(there, &sources), [""; 0]);
    let missing = [
        "ensures", "hidden", "private", "Tenth", "Twelve", "four::x", "D::four", "b::Five", "lent",
    ];
    for name in missing {
        assert_eq!(undeclared(&format!("`One` `{name}`"), &sources), [name]);
    }
}
