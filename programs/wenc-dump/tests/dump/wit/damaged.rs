//! Worlds of damaged components: what is printed beside what can't be read is printed of the whole
//! component, too, which is what it is after a repair of the bytes that can't be read.

use crate::corpus::components;
use crate::dump;
use crate::random::Random;
use std::collections::BTreeSet;
use wenc::{Step, Walk};

/// How many bytes of each component are changed.
const CHANGES: usize = if cfg!(debug_assertions) { 40 } else { 400 };

/// Returns the lines of a text that aren't comments, each with the blocks around it.
fn parts(text: &str) -> BTreeSet<String> {
    let (mut parts, mut around) = (BTreeSet::new(), Vec::new());
    for line in text.lines().map(str::trim) {
        match line {
            "}" => _ = around.pop(),
            "" => {}
            _ if line.starts_with("//") => {}
            _ => {
                parts.insert(
                    [&around.join(" "), " ", line.trim_end_matches([';', '{', ' '])].concat(),
                );
            }
        }
        if line.ends_with('{') {
            around.push(line);
        }
    }
    parts
}

/// Returns whether a byte is among those that can't be read.
fn is_unread(component: &[u8], at: usize) -> bool {
    let walk = Walk::new(component, 100).into_iter().flatten();
    walk.into_iter().any(|step| matches!(step, Step::Unread(unread) if unread.range.contains(&at)))
}

#[test]
fn after_a_fault_nothing_is_printed_that_a_repair_would_change() {
    let (mut random, mut judged, mut less) = (Random(0x9e37_79b9_7f4a_7c15), 0, 0);
    for component in components().filter(|component| component.len() < 40_000) {
        let (status, whole, _) = dump(&["--wit"], &component);
        if status != 0 {
            continue;
        }
        let whole = parts(&whole);
        for _ in 0..CHANGES {
            let (mut changed, at) = (component.clone(), 8 + random.below(component.len() - 8));
            changed[at] ^= 1 + random.below(0xff) as u8;
            if !is_unread(&changed, at) {
                continue;
            }
            judged += 1;
            let (status, out, err) = dump(&["--wit"], &changed);
            assert_eq!(status, 1, "{err}");
            let printed = parts(&out);
            let more: Vec<&String> = printed.difference(&whole).collect();
            assert!(more.is_empty(), "{at:#x}: {more:#?} in\n{out}\n{err}");
            let is_less = printed.len() < whole.len();
            less += usize::from(is_less);
            assert!(!is_less || out.contains("// no WIT: "), "{at:#x}: {out}\n{err}");
        }
    }
    assert!(judged > 5 * CHANGES && less > CHANGES, "{judged} {less}");
}
