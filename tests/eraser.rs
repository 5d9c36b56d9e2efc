//! The eraser: what it rejects, with the line; what becomes of comments; and conditions of items
//! that exist only with a feature.

#[allow(dead_code, reason = "the crate's tables are for the build script")]
#[path = "../build/erase.rs"]
mod erase;

const PRELUDE: &str = "use crate::shim::prelude::*; ";

/// The words become this in the crate `wenc_parts`, but for the prelude.
#[track_caller]
fn becomes(source: &str, wanted: &str) {
    let erased = erase::erase("wenc_parts", source).map(|rust| rust.replacen(PRELUDE, "", 1));
    assert_eq!(erased, Ok(wanted.into()));
}

/// They are refused in this line, for this reason.
#[track_caller]
fn refuses(source: &str, line: usize, why: &str) {
    match erase::erase("wenc_parts", source) {
        Ok(rust) => panic!("it became {rust:?}"),
        Err(refused) => assert_eq!(refused, (line, why), "{source}"),
    }
}

#[test]
fn ghost_items_are_left_out_with_their_comments() {
    becomes(
        "ghost use Rattle.std.specs.Prelude.{◌≡◌, length};\n\nuse super::A;\n",
        "\n\nuse super::A;\n",
    );
    becomes(
        "trait T {\n    /// What is read.\n    ghost form: { Self → Type 0 } = { λ x. x };\n\n    /// It stays.\n    fn f();\n}\n",
        "trait T {\n\n\n\n    /// It stays.\n    fn f();\n}\n",
    );
    becomes(
        "struct S {\n    // A remark stays.\n    a: u8,\n    ghost whole: { a < 9 },\n}\n",
        "struct S {\n    // A remark stays.\n    a: u8,\n\n}\n",
    );
    becomes("impl T for S { ghost form = { S } ; }\n", "impl T for S {  }\n");
}

#[test]
fn examples_are_left_out() {
    becomes(
        "/// What it does.\n///\n/// ```\n/// let x = Vec::new(alloc);\n/// ```\n/// And more.\nfn f() {}\n",
        "/// What it does.\n///\n\n\n\n/// And more.\nfn f() {}\n",
    );
}

#[test]
fn what_introduces_an_example_is_left_out() {
    let example = "/// ```\n/// f();\n/// ```\nfn f() {}\n";
    for (docs, left) in [
        ("/// What it does. As here\n/// or here:\n///\n", "/// What it does.\n\n///\n"),
        ("/// What it does.\n/// Here:\n", "/// What it does.\n\n"),
        ("/// What it does.\n///\n/// Here:\n///\n", "/// What it does.\n///\n\n///\n"),
        ("struct S;\n/// Here:\n///\n", "struct S;\n\n///\n"),
        ("/// One: two.\n///\n", "/// One: two.\n///\n"),
        ("/// A list:\n/// one.\n", "/// A list:\n/// one.\n"),
    ] {
        becomes(&format!("{docs}{example}"), &format!("{left}\n\n\nfn f() {{}}\n"));
    }
    becomes(
        "//! What it does.\n//!\n//! Here\n//!\n//! or here:\n//!\n\
         //! ```\n//! f();\n//! ```\nfn f() {}\n",
        "//! What it does.\n//!\n//! Here\n//!\n\n//!\n\n\n\nfn f() {}\n",
    );
    // What an example has of its own is no introduction.
    let own = "/// It goes\n/// on\n/// ```\n/// // a:\n/// b();\n/// ```\nfn f() {}\n";
    becomes(own, "/// It goes\n/// on\n\n\n\n\nfn f() {}\n");
}

#[test]
fn allocators_are_left_out() {
    for (source, wanted) in [
        ("struct S<A: Allocator = Global>(Vec<u8, A>, [T<A>; 3]);", "struct S(Vec<u8>, [T; 3]);"),
        ("fn f<A: Allocator + 'a, C>(a: A, b: T<A, C>);", "fn f<C>(a: Global, b: T<C>);"),
        (
            "fn f<T, A: Allocator, B: Allocator>() where A: Copy, { S::<A>::a(g::<T, A>()) }",
            "fn f<T>() { S::a(g::<T>()) }",
        ),
        ("type S<B = Global> = T<K, B>; fn f(a: Option<A>);", "type S = T<K>; fn f(a: Option<A>);"),
        (
            "enum S<A = Global> { A1(T<A>), B { c: (U, V<A>) } } impl<A> S<A> where A: Copy, {}",
            "enum S { A1(T), B { c: (U, V) } } impl S {}",
        ),
        ("fn f<A: Allocator>() { let mut x: T<A> = y; }", "fn f() { let mut x: T = y; }"),
        (
            "fn f<T: C, A: Allocator>() where T: D<A> + E, A: Copy, {}",
            "fn f<T: C>() where T: D + E, {}",
        ),
        // These don't compile.
        ("fn f<A: Allocator>() { [B, A, B] }", "fn f() { [B, Global, B] }"),
        ("enum K { B, A } fn f<A: Allocator>() {}", "enum K { B, Global } fn f() {}"),
        (
            "fn f<A: Allocator>((B, A, C): D) { |B, A, C| B }",
            "fn f((B, Global, C): D) { |B, Global, C| B }",
        ),
        (
            "fn f() { Vec::new(a).push(K::new(a)) }",
            "fn f() { Vec::new_using(a).push_using(K::new(a)) }",
        ),
    ] {
        becomes(source, &wanted.replace("Global", "crate::shim::alloc::Handed"));
    }
}

/// Reasons of several rows.
const ATTRIBUTE: &str = "an attribute that is not known";
const DERIVE: &str = "a derive that is not known";
const PASSED: &str = "a change in what a macro is passed";
const DECLARED: &str = "an allocator's name that is declared";
const IMPORT: &str = "an import that is not known";
const BROUGHT: &str = "a name that the eraser brings in";
const ROOT: &str = "a `crate` that is no path's root";
const GHOST: &str = "a ghost item that is not known";

/// What is refused: the line, the reason, and the source.
const REFUSED: &[(usize, &str, &str)] = &[
    (1, PASSED, "fn f() { m!(x.clone()) }"),
    (1, PASSED, "fn f() { a::m![x.push(1)] }"),
    (1, PASSED, "fn f() { m!{crate::x} }"),
    (1, PASSED, "fn f() { m!((#[tactic(auto)] x)) }"),
    (2, PASSED, "fn f() { m!(\n/// a\nx) }"),
    (2, PASSED, "fn f() { m!(\n//! a\nx) }"),
    (2, PASSED, "fn f() { m!(\n/// ```\n/// ```\nx) }"),
    (1, PASSED, "fn f() { m!(ensures { a } x) }"),
    (1, PASSED, "fn f() { m!(#[derive(Drop)] x) }"),
    (1, PASSED, "fn f() { m!(fn main) }"),
    (1, PASSED, "macro_rules! m { (crate::x) => {} }"),
    (1, PASSED, "macro_rules! m { () => { $crate::x } }"),
    (1, PASSED, "macro_rules! m { ($x:expr) => { $x.push(1) } }"),
    (1, PASSED, "fn f<A: Allocator>() { m!(S::<A>::g()) }"),
    (1, PASSED, "fn f<A: Allocator>() { m!(B < C, A, D > B) }"),
    (2, DECLARED, "fn f<A: Allocator>() {}\nconst A: u8 = 1;"),
    (1, DECLARED, "fn f<A: Allocator>() { static A: u8 = 1; }"),
    (1, DECLARED, "fn f<A: Allocator>() { fn A() {} }"),
    (1, DECLARED, "fn f<A: Allocator>() { struct A; }"),
    (1, DECLARED, "fn f<A: Allocator>() {} fn g<const A: u8>() {}"),
    (1, DECLARED, "type A = u8; fn f<A: Allocator>() {}"),
    (1, IMPORT, "use a::*;"),
    (2, IMPORT, "use a::{b,\n c::*};"),
    (1, IMPORT, "use crate::other as wenc_base;"),
    (1, IMPORT, "use a::{b as c};"),
    (1, IMPORT, "use a::{b, Iterator};"),
    (1, "another `Iterator`", "trait Iterator {}"),
    (1, "a method that is named by its path", "Vec::push(x, 1)"),
    (1, "a method that is named by its path", "S::clone(s)"),
    (1, BROUGHT, "fn f() { x.try_clone() }"),
    (1, BROUGHT, "impl S { fn try_clone(&self) {} }"),
    (1, BROUGHT, "trait TryClone {}"),
    (1, BROUGHT, "use a::Members;"),
    (1, BROUGHT, "fn push_using() {}"),
    (2, "a block comment", "\n/* a */ fn f() {}\n"),
    (1, "a raw text or name", "const A: &str = r\"a\";\n"),
    (3, "a raw text or name", "\n\nlet r#fn = 1;\n"),
    (1, "a text with a prefix that is not known", "const A: &[u8] = br\"a\";\n"),
    (2, "a text with a prefix that is not known", "\nconst A: &CStr = c\"a\";\n"),
    (1, "a text without an end", "const A: &str = \"a;\n"),
    (1, "a character without an end", "let c = '\\"),
    (1, "a letter or a sign that is not ASCII", "let é = 1;\n"),
    (2, GHOST, "\nghost fn f() {}\n"),
    (2, GHOST, "trait T {\n    ghost law<x>: { a };\n}\n"),
    (1, GHOST, "ghost a = { b } = { c };\n"),
    (1, GHOST, "ghost a;\n"),
    (2, GHOST, "trait T {\n    ghost a: { b } by { c };\n}\n"),
    (1, "a clause or a ghost item without a block", "ghost a: b;\n"),
    (2, "a clause or a ghost item without a block", "fn f()\n    requires a b { c }\n{}\n"),
    (2, "a clause or a ghost item without a block", "fn f()\n    ensures // a\n { b }\n{}\n"),
    (1, "a ghost item without a name", "ghost { a }\n"),
    (1, "a ghost item without a name", "ghost // a\n use b;\n"),
    (1, "a ghost item without an end", "ghost use a.b\n"),
    (2, "a word in front of a ghost item", "struct S {\n    pub ghost a: { b },\n}\n"),
    (2, "a block without an end", "fn f()\n    ensures { a { b }\n"),
    (2, ATTRIBUTE, "\n#[allow(dead_code)]\nfn f() {}\n"),
    (1, ATTRIBUTE, "#[cfg(unix)]\nfn f() {}\n"),
    (1, ATTRIBUTE, "#[repr(packed)]\nstruct S;\n"),
    (1, ATTRIBUTE, "#[unsafe(no_mangle)]\npub fn f() {}\n"),
    (1, ATTRIBUTE, "#[unsafe(no_mangle)]\nextern \"C\" fn f() {}\n"),
    (1, ATTRIBUTE, "#[unsafe(naked)]\npub extern \"C\" fn f() {}\n"),
    (1, ATTRIBUTE, "#[must_use]\nfn f() {}\n"),
    (1, ATTRIBUTE, "#[test]\nfn t() {}\n"),
    (1, ATTRIBUTE, "#[cfg(test)]\nmod checks;\n"),
    (1, ATTRIBUTE, "#![derive(Clone)]\n"),
    (2, ATTRIBUTE, "enum E {\n    #[error(\"a\")]\n    A,\n}\n"),
    (1, "a bracket without an end", "#[tactic(auto]\nfn f() {}\n"),
    (2, DERIVE, "\n#[derive(Clone, Default)]\nstruct S;\n"),
    (1, DERIVE, "#[derive(Clone, Drop)]\nstruct S;\n"),
    (1, DERIVE, "#[derive(Error)]\npub enum E {}\n"),
    (1, DERIVE, "#[derive()]\nstruct S;\n"),
    (1, DERIVE, "#[derive(a::Clone)]\nstruct S;\n"),
    (1, DERIVE, "#[derive_where(Eq; T)]\nstruct S;\n"),
    (2, "an error that is no enum", "#[derive(Clone, Error)]\npub struct E;\n"),
    (2, "an error that is no enum", "#[derive(Clone, Error)]\nenum E {}\n"),
    (2, "an error that is no enum", "#[derive(Clone, Error)]\npub enum E<A> {}\n"),
    (2, "an error that is no enum", "#[derive(Clone, Error)]\npub enum E;\n"),
    (
        3,
        "a variant of an error without its text",
        "#[derive(Clone, Error)]\npub enum E {\n    A,\n}\n",
    ),
    (2, "an `extern`", "\npub extern \"C\" fn f() {}\n"),
    (1, "an `extern`", "fn f(g: extern \"C\" fn()) {}\n"),
    (1, "an `extern`", "extern crate std;\n"),
    (1, ROOT, "use crate;"),
    (1, "an `unsafe`", "fn f() { unsafe { g() } }\n"),
    (2, "an `unsafe`", "\nunsafe impl Send for S {}\n"),
    (1, "an `unsafe`", "unsafe fn f() {}\n"),
    (2, "a path that begins with `::`", "\nuse ::std::fmt;\n"),
    (1, "a path that begins with `::`", "f(::core::mem::take(x))\n"),
    (1, "a path that begins with `::`", "fn f(x: ::std::A) {}\n"),
    (2, "a module that is no file", "mod a;\nmod b {\n    fn f() {}\n}\n"),
    (2, "an example without an end", "\n/// ```\nfn f() {}\n"),
    (2, "an example outside of documentation", "/// ```\n// x\n/// ```\nfn f() {}\n"),
];

#[test]
fn what_is_not_known() {
    REFUSED.iter().for_each(|(line, why, source)| refuses(source, *line, why));
}

/// What is before and after a sign in a clause and in ghost items.
const GHOSTS: [(&str, &str); 6] = [
    ("fn f()\n    ensures { a ", " }\n{}\n"),
    ("fn f()\n    requires* b { { a ", " } }\n{}\n"),
    ("trait T {\n    ghost a: { ", " } = { b };\n}\n"),
    ("impl T for S {\n    ghost a = { b (", ") };\n}\n"),
    ("struct S {\n    ghost a: { b ", " },\n}\n"),
    ("struct S;\nghost use a.{b, ", " c};\n"),
];

/// Whatever might end a clause or a ghost item elsewhere for the prover than for the eraser, in
/// each of them.
#[test]
fn signs_that_might_hide_a_brace() {
    for (begin, end) in GHOSTS {
        let refuses = |sign: &str, why| refuses(&format!("{begin}{sign}{end}"), 2, why);
        refuses("{- } -}", "a block comment in a clause");
        refuses("{- ; fn g() {} // -}", "a block comment in a clause");
        refuses("{-{- -} } -}", "a block comment in a clause");
        refuses("-}", "the end of a block comment in a clause");
        refuses("-- }\n", "a comment in a clause");
        refuses("a--}\n", "a comment in a clause");
        refuses("// }\n", "a comment of Rust in a clause");
        refuses("/* } */", "a comment of Rust in a clause");
        refuses("'}'", "a character in a clause");
        refuses("'\"'", "a character in a clause");
        for blank in ["\t", "\r", "\u{b}", "\u{c}", "\u{85}", "\u{a0}", "\u{2028}", "\0"] {
            refuses(blank, "a blank that is not known");
        }
        if begin.contains("ghost use") {
            for sign in ["\";\"", "«;»", "⟦;⟧"] {
                refuses(sign, "more than names in a `ghost use`");
            }
        } else {
            refuses("\"}\n\"", "a text of several lines in a clause");
            refuses("\"}", "a text without an end");
            for sign in ["«}»", "«a", "⟦}⟧", "⟦\"}\"⟧", "⟦'}'⟧", "⟦// ⟧", "⟦/*}*/⟧", "⟦A"]
            {
                refuses(sign, "a sign in an escaped name or a type");
            }
            for sign in
                ["\"{}-- // \\\"}\"", "⟦<Vec<T> as Ord>⟧.cmp", "«in»", "a'", "a-b", "{x = 1}"]
            {
                let source = format!("{begin}{sign}{end}");
                assert!(erase::erase("wenc_parts", &source).is_ok(), "{source}");
            }
        }
    }
    for blank in ["\t", "\r", "\u{c}", "\u{85}", "\u{a0}", "\u{2028}", "\0", "\u{7f}"] {
        refuses(&format!("fn f()\n{blank}{{}}\n"), 2, "a blank that is not known");
    }
}

#[test]
fn code_is_all_but_ghosts() {
    let source =
        "ghost use a.{\n    b,\n};\n/// F.\nfn f() -> u8\n    ensures { c\n }\n{\n    5\n}\n";
    let code = "\n\n\n/// F.\nfn f() -> u8\n    \n\n{\n    5\n}\n";
    assert_eq!(erase::without_ghosts(source), Ok(code.into()));
    assert_eq!(erase::without_ghosts("ghost a;"), Err((1, "a ghost item that is not known")));
}

/// The Rust becomes this with its conditions, in which `T` and `W` stand for the attributes.
#[track_caller]
fn is_conditional(rust: &str, wanted: &str) {
    let attribute = |feature| format!("#[cfg(any(feature = \"{feature}\", script, test))] ");
    let wanted = wanted.replace("T ", &attribute("tree")).replace("W ", &attribute("walk"));
    assert_eq!(erase::with_conditions(rust), Ok(wanted));
}

#[test]
fn what_owns_has_a_condition() {
    for (rust, wanted) in [
        ("mod trees;", "T mod trees;"),
        ("pub mod canon_tree;", "W pub mod canon_tree;"),
        ("mod types;", "mod types;"),
        ("pub enum TypeTree {\nA(TypeTree),\n}", "T pub enum TypeTree {\nA(TypeTree),\n}"),
        ("enum A { B(TypeTree) }", "enum A { B(TypeTree) }"),
        (
            "impl Encode for TypeTree { fn f(t: TypeTree) {} }",
            "T impl Encode for TypeTree { fn f(t: TypeTree) {} }",
        ),
        (
            "impl A { fn f(a: [u8; 2], t: &TypeTree) {} fn g() {} }",
            "impl A { T fn f(a: [u8; 2], t: &TypeTree) {} fn g() {} }",
        ),
        (
            "#[inline] pub(in a) fn f() -> Option<ItemTree>;",
            "#[inline] T pub(in a) fn f() -> Option<ItemTree>;",
        ),
        ("fn f() { ItemTree::g() }", "fn f() { ItemTree::g() }"),
    ] {
        is_conditional(rust, wanted);
    }
}

#[test]
fn core_types_are_compared_by_a_feature() {
    let parted = |kept: &str, feature, others| {
        format!("{kept}#[cfg_attr(any(feature = \"{feature}\", script, test), derive({others}))]")
    };
    for (rust, wanted) in [
        (
            "#[derive(Clone, Copy, Debug, Eq)] pub enum ValType { A }",
            parted("#[derive(Clone, Copy)] ", "walk", "Debug, Eq") + " pub enum ValType { A }",
        ),
        (
            "#[derive(Clone, Hash)] #[derive(Eq)] pub struct SubType;",
            parted("", "tree", "Clone, Hash") + &parted(" ", "tree", "Eq") + " pub struct SubType;",
        ),
        (
            "#[derive(Clone, Copy, Eq)] enum ValType { A }",
            "#[derive(Clone, Copy, Eq)] enum ValType { A }".into(),
        ),
        ("#[derive(Eq)] pub struct Other;", "#[derive(Eq)] pub struct Other;".into()),
        ("impl Delimited for ValType {}", "impl Delimited for ValType {}".into()),
    ] {
        is_conditional(rust, &wanted);
    }
    is_conditional("impl DelimitedEq for ValType {}", "W impl DelimitedEq for ValType {}");
    is_conditional("impl DelimitedEq for SubType {}", "T impl DelimitedEq for SubType {}");
}

#[test]
fn imports_are_parted_by_their_conditions() {
    for (rust, wanted) in [
        ("use a::{B, C};", "use a::{B, C};"),
        ("use a::TypeTree;", "T use a::TypeTree;"),
        ("pub use a::{TypeTree, ItemTree};", "T pub use a::{TypeTree, ItemTree};"),
        ("pub use trees::{A, B};", "T pub use trees::{A, B};"),
        ("use crate::canon_tree::A;", "W use crate::canon_tree::A;"),
        ("use a::{TypeTree, B, C};", "T use a::TypeTree; use a::{ B, C};"),
        ("use a::{B, TypeTree};", "T use a::TypeTree; use a::{B};"),
        (
            "pub(in a) use b::{AliasTree, C, NameTree,};",
            "T pub(in a) use b::{AliasTree, NameTree}; pub(in a) use b::{ C,};",
        ),
        ("use canon_tree::{A, CanonTree};", "T use canon_tree::CanonTree; W use canon_tree::{A};"),
    ] {
        is_conditional(rust, wanted);
    }
    let why = "an item without an end";
    assert_eq!(erase::with_conditions("a;\nuse b"), Err((2, why)));
    assert_eq!(erase::with_conditions("fn f()"), Err((1, why)));
}
