//! Allocators, which the types of Rust's library don't have.

use super::lexer::Token;
use std::collections::BTreeMap;

/// What a source has of an allocator `A`, and what is left of that: its bounds are left out first,
/// then itself with a comma, or with the brackets or the `where` that have nothing else.
pub const LEFT_OUT: [(&str, &str); 14] = [
    ("A : Allocator", "A"),
    ("A : Clone", "A"),
    ("A : Copy", "A"),
    ("A + Clone", "A"),
    ("A + Copy", "A"),
    ("A + Drop", "A"),
    ("A + ' b", "A"),
    ("A = Global", "A"),
    ("< A ,", "<"),
    (", A ,", ","),
    (", A >", ">"),
    (":: < A >", ""),
    ("< A >", ""),
    ("where A , {", "{"),
];

/// The names of the allocators in a source.
pub fn names(tokens: &[Token]) -> Vec<String> {
    let declared = tokens.windows(3).filter_map(|three| {
        let [name, sign, of] = three else { return None };
        let is_one = matches!((&*sign.text, &*of.text), (":", "Allocator") | ("=", "Global"));
        (is_one && name.text != "Allocator").then(|| name.text.clone())
    });
    let mut names: Vec<String> = declared.collect();
    names.sort();
    names.dedup();
    names
}

/// Leaves them out of the source, and counts each row of the table.
pub fn leave_out(
    tokens: &mut Vec<Token>,
    names: &[String],
    counts: &mut BTreeMap<&'static str, usize>,
) {
    for (name, (row, left)) in names.iter().flat_map(|name| LEFT_OUT.map(|row| (name, row))) {
        let named = |word| if word == "A" { name.as_str() } else { word };
        let words: Vec<&str> = row.split(' ').map(named).collect();
        let kept = words.iter().position(|word| *word == named(left));
        let mut at = 0;
        while at + words.len() <= tokens.len() {
            let found = &tokens[at..at + words.len()];
            if found.iter().map(|token| &*token.text).eq(words.iter().copied()) {
                let kept = kept.map(|place| found[place].clone());
                tokens.splice(at..at + words.len(), kept);
                *counts.entry(row).or_default() += 1;
            } else {
                at += 1;
            }
        }
    }
}
