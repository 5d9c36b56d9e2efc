//! Whether the crate is made of the proved sources: `proof` compares their digests with PROOF, and
//! this compares each source with the Rust that it became. Where they differ, it has to be in one
//! of the ways that `reader` lists; whatever else is left out, changed, added or moved to another
//! line is found.
//!
//! A source is taken without its clauses and ghost items: `gate/erased` compares that with what the
//! prover reads as code.

mod allocators;
#[allow(dead_code, reason = "`tests/eraser.rs` tests it")]
#[path = "../../build/erase.rs"]
mod erase;
#[path = "../common/erased.rs"]
mod erased;
mod lexer;
mod proof;
mod reader;

use allocators::LEFT_OUT;
use erase::known::{APART, DERIVED_TOO, NARROWED, PARTIAL, TREES, WIDENED};
use lexer::{Token, lex};
use reader::{Old, WAYS, compare, has_conditions, read};
use std::collections::BTreeMap;
use std::fs;
use std::path::{Path, PathBuf};

/// Whether each token is in the line that it has in the source: not in the published package, where
/// no line is left of contracts.
const HAS_LINES: bool = cfg!(in_repository);

/// The sources, each with what it was erased to: the crate, the path, the code and the Rust.
fn sources() -> Vec<(String, PathBuf, String, String)> {
    let (crates, erased) = (Path::new(env!("CARGO_MANIFEST_DIR")).join("crates"), erased::folder());
    let mut found = Vec::new();
    for entry in fs::read_dir(&erased).expect("the Rust is there") {
        let entry = entry.expect("an entry");
        if !entry.path().is_dir() {
            continue;
        }
        let name = entry.file_name().into_string().expect("a name in UTF-8");
        let (folder, mut sources, mut rust) =
            (crates.join(&name), BTreeMap::new(), BTreeMap::new());
        proof::gather(&folder, "src", &mut sources);
        proof::gather(&erased, &name, &mut rust);
        let stems = |files: &BTreeMap<String, Vec<u8>>| {
            let paths = files.keys().filter_map(|path| path.split_once('/'));
            paths.map(|(_, path)| Path::new(path).with_extension("")).collect::<Vec<_>>()
        };
        assert_eq!(stems(&sources), stems(&rust), "each file has its Rust, and no other is there");
        for ((path, source), rust) in sources.into_iter().zip(rust.into_values()) {
            let [source, rust] =
                [source, rust].map(|text| String::from_utf8(text).expect("a text"));
            let code = erase::without_ghosts(&source).expect("the source can be erased");
            found.push((name.clone(), folder.join(path), code, rust));
        }
    }
    found
}

/// The module that a file has.
fn module(path: &Path) -> &str {
    path.file_stem().and_then(|stem| stem.to_str()).unwrap_or("")
}

#[test]
fn erased_sources_are_the_sources() {
    let mut counts = BTreeMap::new();
    let sources = sources();
    assert!(sources.len() > 150, "only {} files", sources.len());
    for (name, path, old, new) in sources {
        let names = (&*name, module(&path));
        if let Err(why) = read(names, &old, &new, HAS_LINES, &mut counts) {
            panic!("{}:{why}", path.display());
        }
    }
    println!("{counts:#?}");
    let ways = WAYS.into_iter().chain(LEFT_OUT.map(|(row, _)| row));
    let unused: Vec<&str> = ways.filter(|way| !counts.contains_key(way)).collect();
    assert!(unused.is_empty(), "nothing differs in these ways any more: {unused:?}");
    assert_eq!(counts["module of a feature"], PARTIAL.len());
    assert_eq!(counts["derive of a tree"], TREES.len());
    assert_eq!(counts["derive of more"], DERIVED_TOO.len());
    assert_eq!(counts["member that stays in this crate"], NARROWED.len());
    assert_eq!(counts["function that the facade calls"], WIDENED.len());
    assert_eq!(counts["tree that is copied out of line"], APART.len());
}

/// What a macro is passed isn't edited, and a name is no other one where it isn't a method's.
#[test]
fn edits_that_mean_something_else_are_found() {
    let read = |source: &str, rust: &str| {
        let rust = format!("use crate::shim::prelude::*; {rust}");
        read(("named", ""), source, &rust, true, &mut BTreeMap::new())
    };
    for (source, rust) in [
        ("fn f() { s.clone }", "fn f() { s.try_clone }"),
        ("fn f() { clone(s) }", "fn f() { try_clone(s) }"),
        ("fn f() { m!(x.clone()) }", "fn f() { m!(x.try_clone()) }"),
        ("fn f() { m!(crate::x) }", "fn f() { m!(crate::proved::named::x) }"),
        ("fn f() { m!(#[tactic(auto)] x) }", "fn f() { m!(x) }"),
        ("fn f() { m!(\n/// a\nx) }", "fn f() { m!(\n\nx) }"),
        (
            "macro_rules! m { (crate::x) => {} }",
            "macro_rules! m { (crate::proved::named::x) => {} }",
        ),
        ("fn f<A: Allocator>() { m!(S::<A>::x) }", "fn f() { m!(S::x) }"),
    ] {
        assert!(read(source, rust).is_err(), "{source}");
    }
    for (source, rust) in [
        ("fn f<T: Clone + Drop>(x: std::A) {}", "fn f<T: Clone + Drop>(x: std::A) {}"),
        ("struct S { a: crate::A }", "struct S { a: crate::proved::named::A }"),
        ("fn clone() { s.clone() }", "fn try_clone() { s.try_clone() }"),
        ("/// a\nm!(x, y);", "/// a\nm!(x, y);"),
        (
            "fn f<A: Allocator>(a: A, x: [S<A>; 2]) { let x: T<u8, A> = S::<A>::x(); }",
            "fn f(a: crate::shim::alloc::Handed, x: [S; 2]) { let x: T<u8> = S::x(); }",
        ),
    ] {
        assert_eq!(read(source, rust), Ok(()), "{source}");
    }
}

/// What is written around the Rust: a module for each crate, in which no name is in scope but those
/// of the shim's prelude.
#[test]
fn nothing_is_around_the_crates() {
    let walk = "any(feature = \"walk\", script, test)";
    let tree = "any(feature = \"tree\", script, test)";
    let (programs, tests) = ("any(script, test)", "all(test, not(script))");
    let crates = [
        ("wenc_base wenc_parts wenc_types wenc_canon wenc_sections wenc_builder", ""),
        ("wenc_read wenc_view wenc_list", walk),
        ("wenc_decode wasm_encoder", tree),
        ("wenc rebuild", programs),
        ("proved_parts proved_lists proved_tests proved_scripts", tests),
    ];
    let mut wanted = String::new();
    for (names, condition) in crates {
        for name in names.split(' ') {
            if !condition.is_empty() {
                wanted += &format!("#[cfg({condition})] ");
            }
            let file = if name == "rebuild" { "main" } else { "lib" };
            wanted += &format!(
                "#[allow(clippy::all, dead_code, missing_docs, unused_braces)]
                #[allow(unused_imports, unused_variables)]
                #[no_implicit_prelude]
                #[cfg_attr(not(test), warn(clippy::disallowed_methods))]
                #[path = \"{name}/{file}.rs\"] pub mod {name};"
            );
        }
    }
    let declared = fs::read_to_string(erased::folder().join("crates.rs")).expect("it is there");
    let texts = |text: &str| lex(text).into_iter().map(|token| token.text).collect::<Vec<_>>();
    assert_eq!(texts(&declared), texts(&wanted));
    // One that is defined before the crates would come before the prelude's.
    for file in ["src/lib.rs", "src/proved.rs"] {
        let path = Path::new(env!("CARGO_MANIFEST_DIR")).join(file);
        let tokens = texts(&fs::read_to_string(path).expect("it is there"));
        let mut words = tokens.iter().map(String::as_str);
        assert!(!words.any(|word| ["macro_rules", "macro_use"].contains(&word)), "{file}");
    }
}

/// In one file in five, if it is short: each token left out, changed, moved to the next line with
/// all behind it, and another put in after it.
#[test]
fn each_token_counts() {
    let mut sources = sources();
    sources.sort();
    let (mut planted, mut counts) = (0, BTreeMap::new());
    for (name, path, old, new) in sources.into_iter().step_by(5) {
        let longer = format!("{new}\n");
        let names = (&*name, module(&path));
        assert_eq!(read(names, &old, &longer, HAS_LINES, &mut counts).is_err(), HAS_LINES);
        let (old, mut new) = (Old::new(&old, &mut counts), lex(&new));
        for at in 0..if new.len() < 500 { new.len() } else { 0 } {
            let place = format!("{}:{}", path.display(), new[at].line);
            let mut is_found =
                |new: &[Token]| compare(names, &old, new, HAS_LINES, &mut counts).is_err();
            let token = new.remove(at);
            assert!(is_found(&new), "{place}: left out");
            new.insert(at, Token { text: format!("{}x", token.text), ..token.clone() });
            assert!(is_found(&new), "{place}: changed");
            new.insert(at, token);
            assert!(is_found(&new), "{place}: something put in");
            new.remove(at + 1);
            new[at..].iter_mut().for_each(|token| token.line += 1);
            assert_eq!(is_found(&new), HAS_LINES, "{place}: moved");
            new[at..].iter_mut().for_each(|token| token.line -= 1);
            planted += 4;
        }
    }
    assert!(planted > 4000, "only {planted} changes");
}

#[test]
fn modules_of_trees_have_one_condition() {
    assert!(erase::is_owned("type_tree") && erase::is_owned("listing"));
    assert!(!erase::is_owned("canon_tree") && !erase::is_owned("types"));
    assert!(has_conditions("wenc_types", "types") && !has_conditions("wenc_types", "type_tree"));
    assert!(has_conditions("wenc_sections", "canon_tree") && !has_conditions("wenc_decode", "lib"));
}
