//! What definitions say of damaged components: nothing that is otherwise in the undamaged one, and
//! one definition at the end of each chain.

use crate::{corpus, features};
use std::collections::{BTreeMap, BTreeSet};
use wenc::scope::{Definition, Definitions, Instances, Meaning, Scope};
use wenc::tree::Space;
use wenc::view::ItemView;
use wenc::{Step, Walk};

/// Components that are read without an error.
fn components() -> Vec<(String, Vec<u8>)> {
    let all = corpus::components().into_iter().chain([("features".into(), features::known())]);
    all.filter(|(_, bytes)| wenc::list(bytes).is_ok()).collect()
}

/// Calls a function with each scope and list as it is written, the outermost component's first.
fn each_scope<'s, 'a>(scope: Scope<'s, 'a>, visit: &mut dyn FnMut(Scope<'s, 'a>)) {
    visit(scope);
    for inner in scope.definitions().filter_map(Definition::inner) {
        each_scope(inner, visit);
    }
}

fn each_definition<'s, 'a>(all: &'s Instances<'s, 'a>) -> Vec<Definition<'s, 'a>> {
    let mut found = Vec::new();
    each_scope(all.component(), &mut |scope| found.extend(scope.definitions()));
    found
}

/// What is known of a component.
#[derive(Default)]
struct Known {
    /// By the byte offset of a scope.
    counts: BTreeMap<(usize, Space), u64>,
    /// By the byte offsets of a definition: its index, and where what it is ends.
    definitions: BTreeMap<(usize, usize), (Option<u32>, Option<usize>)>,
}

impl Known {
    fn of(bytes: &[u8]) -> (Self, usize) {
        let (mut known, mut errors) = (Self::default(), 0);
        let all = Definitions::past_faults(bytes, 100, |_| errors += 1);
        let all = all.instances();
        each_scope(all.component(), &mut |scope| {
            for space in Space::ALL {
                let count = scope.count(space).map(|count| ((scope.place(), space), count));
                known.counts.extend(count);
            }
        });
        for of in each_definition(&all) {
            if !matches!(of.meaning(), Meaning::Unread { .. }) {
                let last = of.resolve().ok().map(Definition::place);
                known.definitions.insert((of.range().start, of.range().end), (of.index(), last));
            }
        }
        (known, errors)
    }

    /// Expects that all that is known of a damaged component is so in this one. Returns how many
    /// definitions there are, and how many of these have an index that isn't known.
    fn has(&self, of: &Self, what: &str) -> (usize, usize) {
        for (scope, count) in &of.counts {
            assert_eq!(self.counts.get(scope), Some(count), "{what}: {scope:x?}");
        }
        let mut unknown = 0;
        for (range, (index, last)) in &of.definitions {
            let (own_index, own_last) = self.definitions.get(range).expect(what);
            assert!(index.is_none() || index == own_index, "{what}: {range:x?}");
            assert!(last.is_none() || last == own_last, "{what}: {range:x?}");
            unknown += usize::from(index != own_index || last != own_last);
        }
        (of.definitions.len(), unknown)
    }
}

/// Where the first bytes of items are, and the numbers of a section's items, of one byte.
fn places(bytes: &[u8]) -> (Vec<usize>, BTreeSet<usize>) {
    let (mut items, mut counts, mut is_first) = (Vec::new(), BTreeSet::new(), false);
    for step in Walk::new(bytes, 100).expect("a component") {
        match step {
            Step::Section(section) => is_first = ![0, 1, 4, 9].contains(&section.id()),
            Step::Item(item) => {
                items.push(item.range.start);
                if std::mem::take(&mut is_first) {
                    counts.insert(item.range.start - 1);
                }
            }
            _ => {}
        }
    }
    (items, counts)
}

/// A damaged item, a number of items that is one too many or too few, and bytes that a size leaves
/// out: what is known then is so in the undamaged component, too.
#[test]
fn nothing_is_known_that_is_otherwise() {
    let (mut damaged, mut definitions, mut unknown) = ([0; 3], 0, 0);
    for (name, mut bytes) in components() {
        let (known, _) = Known::of(&bytes);
        let (items, counts) = places(&bytes);
        let changes = items.iter().map(|at| (0, *at, 0xff));
        let counts = counts.iter().flat_map(|at| {
            [(1, *at, bytes[*at].wrapping_add(1)), (2, *at, bytes[*at].wrapping_sub(1))]
        });
        for (kind, at, byte) in changes.chain(counts).collect::<Vec<_>>() {
            let before = std::mem::replace(&mut bytes[at], byte);
            let (changed, errors) = Known::of(&bytes);
            if errors > 0 {
                let found = known.has(&changed, &format!("{name} {at:#x}"));
                damaged[kind] += 1;
                (definitions, unknown) = (definitions + found.0, unknown + found.1);
            }
            bytes[at] = before;
        }
    }
    assert!(damaged.iter().all(|count| *count > 300), "{damaged:?}");
    assert!(definitions > 100_000 && unknown > 10_000, "{definitions} {unknown}");
}

/// Follows a definition step by step. Returns the last one, unless it can't be followed.
fn last<'s, 'a>(of: Definition<'s, 'a>) -> Option<Definition<'s, 'a>> {
    let is_ascribed = |of: Definition<'_, '_>| {
        matches!(of.meaning(), Meaning::Item(ItemView::Export { ty: Some(_), .. }))
            && of.resolve() == Ok(of)
    };
    let mut at = of;
    for _ in 0..10_000 {
        match at.target() {
            Ok(Some(next)) if !is_ascribed(at) => at = next,
            Ok(_) => return Some(at),
            Err(_) => return None,
        }
    }
    panic!("{of:?} has no end")
}

/// Expects that each definition, also of what instances export, ends where it is followed to, and
/// that what it is followed to is the same as nothing else.
fn ends(scope: Scope<'_, '_>, depth: u32, seen: &mut [usize; 3]) {
    for of in scope.definitions() {
        let resolved = of.resolve();
        assert_eq!(last(of), resolved.ok(), "{of:?}");
        seen[0] += 1;
        seen[1] += usize::from(of.instance().is_some());
        seen[2] += usize::from(resolved.is_err());
        if let Ok(end) = resolved {
            assert_eq!(end.resolve(), Ok(end));
        }
        let has_exports = [Space::Instances, Space::CoreInstances, Space::Components];
        let exports = of.space().filter(|of| has_exports.contains(of)).and(of.exports().ok());
        let inner = [exports.flatten(), of.inner()].into_iter().flatten();
        inner.filter(|_| depth > 0).for_each(|scope| ends(scope, depth - 1, seen));
    }
}

#[test]
fn chains_end_where_they_are_followed_to() {
    let mut seen = [0; 3];
    for (name, mut bytes) in components() {
        let step = (bytes.len() / 40).max(1);
        for at in (8..bytes.len()).step_by(step) {
            for change in [0, 1, 0x10] {
                bytes[at] ^= change;
                let all = Definitions::past_faults(&bytes, 100, |_| {});
                ends(all.instances().component(), 3, &mut seen);
                bytes[at] ^= change;
            }
        }
        assert!(Definitions::new(&bytes, 100).is_ok(), "{name}");
    }
    assert!(seen[0] > 100_000 && seen[1] > 50_000 && seen[2] > 1_000, "{seen:?}");
}

/// The users of each definition are those that have an index of it, and the definition at a byte
/// offset is the shortest one that has it.
#[test]
#[allow(clippy::mutable_key_type, reason = "definitions are compared by their numbers alone")]
fn users_and_places() {
    let (mut users, mut offsets) = (0, 0);
    for (name, bytes) in components() {
        let all = Definitions::new(&bytes, 100).expect("it is read");
        let all = all.instances();
        let definitions = each_definition(&all);
        let mut used: BTreeMap<_, Vec<_>> = BTreeMap::new();
        for of in &definitions {
            of.each_index(|index| {
                let to = of.used(index).expect("it is valid");
                assert!(index.space == to.space().expect("it has an index"));
                used.entry(to).or_default().push(*of);
            });
        }
        for of in &definitions {
            let found: Vec<_> = all.users(*of).expect("there is memory").collect();
            let mut wanted = used.remove(of).unwrap_or_default();
            wanted.sort();
            users += found.len();
            assert_eq!(found, wanted, "{name} {of:?}");
        }
        let wanted = (0..bytes.len()).map(|offset| {
            let all = definitions.iter().filter(|of| of.range().contains(&offset));
            all.min_by_key(|of| of.range().len()).copied()
        });
        for (offset, wanted) in wanted.enumerate().step_by(7) {
            assert_eq!(all.at(offset), wanted, "{name} {offset:#x}");
            offsets += 1;
        }
        assert_eq!(all.at(bytes.len()), None);
    }
    assert!(users > 3_000 && offsets > 10_000, "{users} {offsets}");
}
