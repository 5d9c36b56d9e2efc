//! Each path that a page names is there, and each heading to which a link leads. `gate/package`
//! tests the links of the package for Rust, and `releasing/test` those of all packages.
//!
//! A page names a path in a link, relative to itself, or in backquotes: relative to itself, to the
//! repository or to `crates`, or by its end, where what stands before it is known. In backquotes
//! `{a,b}` stands for each, `*` for any letters, and a word in capitals for any name.

#[path = "pages/declared_names.rs"]
mod declared_names;

use std::collections::BTreeSet;
use std::{fs, path::Path};

/// Files that are generated, or the reader's own.
const MADE: [&str; 4] = ["crates/wenc_program/out/wenc_program", "first.c", "released", "target/c"];

/// What a word in backquotes ends with that names a file.
const ENDS: [&str; 9] = [".antt", ".c", ".edit", ".h", ".md", ".mjs", ".rs", ".rt", ".toml"];

/// The files and folders of a repository, by their paths, and the headings of its pages, each after
/// its page and a `#`.
#[derive(Default)]
struct Tree(BTreeSet<String>);

impl Tree {
    /// Adds a file with the folders that it is in, and the headings of a page.
    fn add(&mut self, path: &str, text: &str) {
        let folders = path.match_indices('/').map(|(end, _)| path[..end].to_owned());
        self.0.extend(folders.chain([path.to_owned()]));
        if path.ends_with(".md") {
            let headings = outside_of_code(text).filter(|line| line.starts_with('#'));
            self.0.extend(headings.map(|line| format!("{path}#{}", slug(line))));
        }
    }

    /// Whether a pattern is a path, or the end of one.
    fn has(&self, pattern: &str, is_end: bool) -> bool {
        let wanted: Vec<&str> = pattern.split('/').collect();
        self.0.contains(pattern)
            || self.0.iter().any(|path| {
                let names: Vec<&str> = path.split('/').collect();
                let front = names.len().checked_sub(wanted.len());
                front.filter(|front| is_end || *front == 0).is_some_and(|front| {
                    wanted.iter().zip(&names[front..]).all(|(part, name)| fits(part, name))
                })
            })
    }

    /// The paths that a page names and that aren't there.
    fn dead(&self, page: &str, text: &str) -> Vec<String> {
        let (links, quoted) = named(text);
        let dead_links = links.into_iter().filter(|link| !self.0.contains(&below(page, link)));
        let is_path = |path: &String| {
            [below(page, path), path.clone(), format!("crates/{path}")]
                .iter()
                .any(|path| self.has(path, false))
                || self.has(path, true)
                || MADE.contains(&path.as_str())
        };
        dead_links.chain(quoted.into_iter().filter(|path| !is_path(path))).collect()
    }
}

/// The lines of a page outside of fenced blocks.
fn outside_of_code(text: &str) -> impl Iterator<Item = &str> {
    let mut is_code = false;
    text.lines().filter(move |line| {
        is_code ^= line.starts_with("```");
        !is_code && !line.starts_with("```")
    })
}

/// What a link to a heading has after its `#`.
fn slug(heading: &str) -> String {
    let words = heading.trim_start_matches('#').trim().to_lowercase().replace(' ', "-");
    words.chars().filter(|c| c.is_alphanumeric() || "-_".contains(*c)).collect()
}

/// Whether a name is what a part of a pattern stands for.
fn fits(part: &str, name: &str) -> bool {
    let stem = part.split('.').next().unwrap_or("");
    let is_any = !stem.is_empty() && stem.chars().all(|c| c.is_ascii_uppercase());
    let pattern = if is_any { part.replacen(stem, "*", 1) } else { part.to_owned() };
    part == name || is_match(&pattern, name)
}

/// Whether a name is what a pattern stands for, with any letters for its `*`.
fn is_match(pattern: &str, name: &str) -> bool {
    pattern.split_once('*').map_or(pattern == name, |(front, end)| {
        name.strip_prefix(front).is_some_and(|rest| rest.ends_with(end))
    })
}

/// The pages that `releasing/make` lays in the tarball.
fn of_tarball(script: &str) -> Vec<&str> {
    let lay = "    releasing/pages . \"$1\" ";
    let pages = script.lines().find_map(|line| line.strip_prefix(lay));
    pages.expect("the pages are laid").split_whitespace().collect()
}

/// A path relative to a page, from the repository on.
fn below(page: &str, path: &str) -> String {
    let own = if path.starts_with('#') { page } else { "" };
    let folder = page.rsplit_once('/').map_or("", |(folder, _)| folder);
    let mut parts: Vec<&str> = Vec::new();
    for part in folder.split('/').filter(|_| own.is_empty()).chain(path.split('/')) {
        match part {
            "" | "." => {}
            ".." if parts.pop().is_some() => {}
            _ => parts.push(part),
        }
    }
    own.to_owned() + &parts.join("/")
}

/// A path for each choice in its braces.
fn choices(path: &str) -> Vec<String> {
    let parts = path.split_once('{').and_then(|(front, rest)| {
        let (choice, end) = rest.split_once('}')?;
        Some((front, choice, end))
    });
    let Some((front, choice, end)) = parts else { return vec![path.to_owned()] };
    choice.split(',').flat_map(|one| choices(&format!("{front}{one}{end}"))).collect()
}

/// The paths that a page names: in links, and in backquotes.
fn named(text: &str) -> (Vec<String>, Vec<String>) {
    let (mut links, mut quoted) = (Vec::new(), Vec::new());
    for line in outside_of_code(text) {
        let targets = line.split("](").skip(1).filter_map(|rest| rest.split_once(')'));
        let inside = targets.map(|(target, _)| target).filter(|target| !target.contains("://"));
        links.extend(inside.map(str::to_owned));
        for word in line.split('`').skip(1).step_by(2).flat_map(str::split_whitespace) {
            let word = word.trim_start_matches("./").trim_end_matches('/');
            let is_plain = |c: char| c.is_ascii_alphanumeric() || "_-./*{},".contains(c);
            let is_path = word.contains('/') || ENDS.iter().any(|end| word.ends_with(end));
            if is_path && word.chars().all(is_plain) && !word.starts_with(['/', '.']) {
                quoted.extend(choices(word));
            }
        }
    }
    (links, quoted)
}

/// Adds the files of a folder, but for what is made.
fn gather(top: &Path, folder: &Path, tree: &mut Tree, pages: &mut Vec<(String, String)>) {
    for entry in fs::read_dir(folder).expect("the folder can be read") {
        let path = entry.expect("an entry").path();
        let name = path.file_name().expect("a name").to_string_lossy();
        if path.is_dir() && ![".git", "out", "released", "target"].contains(&&*name) {
            gather(top, &path, tree, pages);
        } else if path.is_file() {
            let place = path.strip_prefix(top).expect("it is below").to_string_lossy();
            let is_page = name.ends_with(".md");
            let text =
                if is_page { fs::read_to_string(&path).expect("a text") } else { String::new() };
            tree.add(&place, &text);
            pages.extend(is_page.then(|| (place.into_owned(), text)));
        }
    }
}

/// The repository.
const TOP: &str = concat!(env!("CARGO_MANIFEST_DIR"), "/../..");

/// What is in the repository, and its pages.
fn gathered() -> (Tree, Vec<(String, String)>) {
    let (mut tree, mut pages) = (Tree::default(), Vec::new());
    gather(TOP.as_ref(), TOP.as_ref(), &mut tree, &mut pages);
    assert!(pages.len() > 20, "only {} pages", pages.len());
    (tree, pages)
}

#[test]
fn each_path_on_a_page_is_there() {
    let (tree, pages) = gathered();
    let (mut dead, mut count) = (Vec::new(), 0);
    for (page, text) in &pages {
        let (links, quoted) = named(text);
        count += links.len() + quoted.len();
        dead.extend(tree.dead(page, text).iter().map(|path| format!("{page}: {path}")));
    }
    assert!(dead.is_empty(), "these aren't there:\n{}", dead.join("\n"));
    assert!(count > 250, "only {count} paths");
}

/// The tarball has a first page of its own. On the others a link that leads out of it is a text.
#[test]
fn the_first_page_of_the_tarball_leads_to_the_others() {
    let pages = of_tarball(include_str!("../releasing/make"));
    let mut links = named(include_str!("../releasing/README.md.in")).0;
    links.sort();
    assert_eq!(links, pages);
}

#[test]
fn what_is_not_there_is_found() {
    let mut tree = Tree::default();
    for path in ["check", "crates/a/src/b/c.rt", "crates/a/src/d.rt", "tests/e.rs"] {
        tree.add(path, "");
    }
    tree.add("docs/F.md", "# F\n\n## One, `two`: three-four\n\n```\n# no heading\n```\n");
    let dead = |text: &str| tree.dead("docs/G.md", text);
    let there = "[a](F.md#one-two-three-four) [b](../check) [c](F.md) [web](https://a/b)\n\
        `a/src/d.rt` `../check` `tests/` `F.md` `crates/*/src/{d,b/*}.rt`\n\
        `crates/CRATE/src/NAME.rt`\n\
        `b/c.rt` `d.rt` `tests/e.rs 3` `target/c` `/dev/null` `a = \"../x\"` `.rs` c/d.rs\n\
        ```\n`e/f.rs` [g](h.md)\n```\n";
    assert_eq!(dead(there), [""; 0]);
    for (text, wanted) in [
        ("[a](check)", "check"),
        ("[a](F.md#no-heading)", "F.md#no-heading"),
        ("[a](#f)", "#f"),
        ("[a](../F.md)", "../F.md"),
        ("`crates/a/src/c.rt`", "crates/a/src/c.rt"),
        ("`a/d.rt`", "a/d.rt"),
        ("`{tests,src}/e.rs`", "src/e.rs"),
        ("`crates/*/*.rs`", "crates/*/*.rs"),
        ("`programs/CRATE/NAME.rt`", "programs/CRATE/NAME.rt"),
        ("`c.rs`", "c.rs"),
        ("`gate/test`", "gate/test"),
    ] {
        assert_eq!(dead(text), [wanted], "{text}");
    }
    assert_eq!(tree.dead("docs/F.md", "[a](#f)"), [""; 0]);
}
