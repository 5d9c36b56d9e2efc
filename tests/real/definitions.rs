//! Definitions of real, random and damaged components: an index has one unless it is out of range,
//! and in a valid component each definition is followed to its end.

use crate::indices::{found, with_indices};
use crate::toolchain::linker;
use crate::{corpus, features, random};
use std::collections::BTreeSet;
use wenc::scope::{Definition, Definitions, Meaning, Scope as Around, ScopeFault};
use wenc::tree::{AliasTree, IndexCounts, ItemTree, Scope, Space, UsedIndex};
use wenc::view::ItemView;
use wenc::{Alias, ComponentSectionId, DebugNames, Step, Walk};
use wenc_calls::by_items::by_items;

/// An index without a definition, and the number of those that its space has.
type Missing = (Space, u32, u64);

/// What was seen of definitions.
#[derive(Default)]
struct Seen {
    definitions: usize,
    indices: usize,
    missing: Vec<Missing>,
    faults: Vec<ScopeFault>,
}

impl Seen {
    fn add_all(&mut self, scope: Around<'_, '_>) {
        scope.definitions().for_each(|of| self.add(of));
    }

    /// Looks for the indices of a definition, and of those in it.
    fn add(&mut self, of: Definition<'_, '_>) {
        self.definitions += 1;
        let targets = [of.target().err(), of.ty().err(), of.exports().err()];
        self.faults.extend(targets.into_iter().flatten());
        match (of.meaning(), of.inner()) {
            // the list of an instance, whose indices are those of the item
            (Meaning::Item(item), Some(list)) if is_instance(of) => {
                let targets = list.definitions().map(Definition::target);
                self.faults.extend(targets.filter_map(Result::err));
                item.node().each_index(|used| self.look(of, used));
            }
            (_, Some(inner)) => self.add_all(inner),
            (Meaning::Item(item), None) => item.node().each_index(|used| self.look(of, used)),
            (Meaning::Module(decl), None) => decl.node().each_index(|used| self.look(of, used)),
            // as an import of this type has
            (Meaning::Declared { name, ty }, None) => {
                ItemView::Import { name, ty }.node().each_index(|used| self.look(of, used));
            }
            _ => panic!("{of:?} is in a list"),
        }
    }

    /// Looks for an index of a definition.
    fn look(&mut self, of: Definition<'_, '_>, UsedIndex { space, scope, index, .. }: UsedIndex) {
        self.indices += 1;
        let Scope::Component(out) = scope else { panic!("{of:?} has a scope of its own") };
        let mut around = Some(of.scope());
        for _ in 0..out {
            around = around.and_then(Around::outer);
        }
        // types of a group may refer to one another
        let own = if out == 0 && of.space() == Some(space) && space == Space::CoreTypes {
            of.count().into()
        } else {
            0
        };
        let count = around.map_or(0, |around| around.count(space).expect("they are read")) + own;
        let is_there = around.is_some_and(|around| around.get(space, index).is_ok());
        assert_eq!(is_there, u64::from(index) < count - own, "{of:?} {space:?} {index}");
        if u64::from(index) >= count {
            self.missing.push((space, index, count));
        }
    }
}

fn is_instance(of: Definition<'_, '_>) -> bool {
    matches!(of.space(), Some(Space::Instances | Space::CoreInstances))
}

/// Compares the definitions of a component with the indices that are out of range.
fn seen(name: &str, component: &[u8]) -> Seen {
    let definitions = Definitions::new(component, 100).expect(name);
    let definitions = definitions.instances();
    let mut seen = Seen::default();
    seen.add_all(definitions.component());
    let found = found(component).into_iter().map(|of| (of.space, of.index, of.count));
    assert_eq!(seen.missing, found.collect::<Vec<_>>(), "{name}");
    for fault in &seen.faults {
        if let ScopeFault::OutOfRange { space, index, count, .. } = *fault {
            assert!(seen.missing.contains(&(space, index, count)), "{name}: {fault:?}");
        }
    }
    seen
}

fn is_valid(name: &str, component: &[u8]) -> Seen {
    let seen = seen(name, component);
    assert!(seen.missing.is_empty() && seen.faults.is_empty(), "{name}: {:?}", seen.faults);
    seen
}

#[test]
fn valid_components_are_followed() {
    let (mut components, mut definitions, mut indices) = (0, 0, 0);
    for (name, bytes) in corpus::components() {
        if wenc::list(&bytes).is_err() {
            continue;
        }
        let seen = is_valid(&name, &bytes);
        components += 1;
        definitions += seen.definitions;
        indices += seen.indices;
    }
    assert_eq!((components, indices), (40, 3498));
    assert!(definitions > 2_500, "{definitions}");
    is_valid("features", &features::known());
    for seed in 1..=16 {
        let (bytes, count, _) = random::components(seed, 2, false);
        let seen = is_valid("random", &bytes);
        assert!(seen.definitions > 10 * count, "{seed}: {}", seen.definitions);
    }
}

/// Builtins that moved can't be read. What comes after them has the indices that the names of the
/// component say.
#[test]
fn builtins_that_moved() {
    let of_cancellable = [(1, "0"), (2, "1"), (6, "run"), (7, "cabi_realloc")];
    let of_unsuspend = [(1, "run"), (2, "cabi_realloc")];
    for (name, unread, aliases) in [
        ("39-cancellable", &[0, 3, 4, 5][..], &of_cancellable[..]),
        ("37-thread-unsuspend", &[0], &of_unsuspend),
    ] {
        let bytes = corpus::read(&format!("wasm/{name}.wasm"));
        let definitions = Definitions::past_faults(&bytes, 100, |_| {});
        let definitions = definitions.instances();
        let (scope, mut named) = (definitions.component(), 0);
        for (space, index, of) in DebugNames::of(&bytes).iter() {
            let found = scope.get(space, index);
            let is_unread = matches!(found, Err(ScopeFault::Unread { .. }));
            assert_eq!(is_unread, space == Space::CoreFuncs && unread.contains(&index), "{of}");
            assert!(is_unread || found.is_ok_and(|found| found.index() == Some(index)), "{of}");
            named += 1;
        }
        assert!(named > 8, "{named}");
        for (index, of) in aliases {
            let alias = scope.get(Space::CoreFuncs, *index).expect("it is read").meaning();
            let Meaning::Item(ItemView::Alias(Alias::CoreInstanceExport { name, .. })) = alias
            else {
                panic!("{name} {index}")
            };
            assert_eq!(name, *of);
        }
    }
}

/// Items define indices in the spaces that `add_unread` makes unknown, and in each of them.
#[test]
fn spaces_of_unread_items() {
    let mut seen = BTreeSet::new();
    let components = corpus::components().into_iter().map(|(_, bytes)| bytes);
    let random = (1..=16).map(|seed| random::components(seed, 2, false).0);
    // aliases of an instance, a value and a component, and a start function with a result
    let others = b"\0asm\x0d\0\x01\0\x06\x10\x03\x05\0\0\x01a\x02\0\0\x01b\x04\0\0\x01c\
        \x09\x03\0\0\x01";
    for bytes in components.chain([features::known(), others.to_vec()]).chain(random) {
        let mut id = 0;
        for step in Walk::new(&bytes, 100).expect("a component") {
            match step {
                Step::Section(section) => id = section.id(),
                Step::Item(item) => {
                    let defined = item.view.defined_indices();
                    seen.extend(defined.map(|(space, _)| (id, space)));
                }
                Step::Leave => _ = seen.insert((4, Space::Components)),
                _ => {}
            }
        }
    }
    let unknown = ComponentSectionId::ALL.into_iter().flat_map(|id| {
        let mut counts = IndexCounts::default();
        counts.add_unread(id);
        let is_unknown = move |space: &Space| counts.of(*space).is_none();
        Space::ALL.into_iter().filter(is_unknown).map(move |space| (id.into(), space))
    });
    assert_eq!(seen, unknown.collect());
}

/// Expects that the only index without a definition is one of this space. Returns how many
/// definitions can't be followed for that.
pub fn is_missing(name: &str, space: Space, component: &[u8]) -> usize {
    let seen = seen(name, component);
    assert!(matches!(seen.missing[..], [(of, ..)] if of == space), "{name}: {:?}", seen.missing);
    seen.faults.len()
}

/// Every index of a component is out of range.
#[test]
fn no_index_has_a_definition() {
    for (name, bytes) in corpus::components() {
        if wenc::list(&bytes).is_ok() {
            let far = with_indices(&bytes, &mut 0, &|_| Some(u32::MAX));
            let seen = seen(&name, &far);
            assert_eq!(seen.missing.len(), seen.indices, "{name}");
        }
    }
}

/// Returns the component with another name in the alias with this number, if there is one.
fn with_name(bytes: &[u8], number: usize) -> Option<Vec<u8>> {
    let mut next = 0;
    let changed = by_items(bytes, |items, _, mut item| {
        if let ItemTree::Alias(AliasTree::InstanceExport { name, .. }) = &mut item {
            if next == number {
                name.push_str("-no");
            }
            next += 1;
        }
        items.item(&item).map(drop)
    });
    (next > number).then_some(changed)
}

/// An alias of an export that the instance doesn't have, which the validator refuses, too.
#[test]
fn names_without_an_export() {
    let (linker, mut all) = (linker("names of exports"), 0);
    for (name, bytes) in corpus::components() {
        if wenc::list(&bytes).is_err() {
            continue;
        }
        for number in 0.. {
            let Some(changed) = with_name(&bytes, number) else { break };
            let seen = seen(&name, &changed);
            assert!(seen.missing.is_empty());
            let first = seen.faults.first();
            assert!(matches!(first, Some(ScopeFault::NoExport { .. })), "{name}: {first:?}");
            all += 1;
            if let (Some(linker), 0) = (&linker, all % 8) {
                assert!(linker.refuses(&changed).is_some(), "{name}: it is valid");
            }
        }
    }
    assert!(all > 80, "{all}");
}

/// Components with a byte changed: they are read, or aren't, and agree.
#[test]
fn damaged_components_agree() {
    let (mut read, mut faults) = (0, 0);
    for (name, bytes) in corpus::components() {
        let mut bytes = bytes;
        let step = (bytes.len() / 100).max(1);
        for at in (8..bytes.len()).step_by(step) {
            for change in [1, 2, 0x10] {
                bytes[at] ^= change;
                if Definitions::new(&bytes, 100).is_ok() {
                    read += 1;
                    faults += seen(&name, &bytes).faults.len();
                }
                bytes[at] ^= change;
            }
        }
    }
    assert!(read > 5_000 && faults > 1_000, "{read} {faults}");
}
