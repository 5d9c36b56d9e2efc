//! Indices of real components: none is out of range, and each is found if it is raised to the
//! number of indices in its space, as upstream's validator finds it. With items inserted before all
//! others, whose indices are moved, a component is still valid; with these removed again, it has
//! its bytes.

use crate::corpus;
use crate::definitions::is_missing;
use crate::rebuilt::built;
use crate::side_by_side::side_by_side;
use crate::toolchain::{Linker, linker};
use wenc::tree::{Command, IndexUse, ItemTree, Scope, Space, UsedIndex};
use wenc::{
    ComponentBuilder, ComponentExportKind as Kind, ComponentTypeRef, ComponentValType, ExportKind,
    Listing, Module, ModuleArg, ModuleType, OutOfRange, PrimitiveValType, RawSection, Walk, list,
};
use wenc_calls::by_items::by_items;

/// How deep components may nest.
const LIMIT: usize = 100;

pub fn found(component: &[u8]) -> Vec<OutOfRange> {
    let walk = Walk::new(component, LIMIT).expect("it is a component");
    walk.out_of_range().map(|found| found.expect("it is read")).collect()
}

/// The values that indices get, by their numbers in the order of the component and of those in it;
/// `None` keeps an index.
pub type To<'a> = dyn Fn(usize) -> Option<u32> + 'a;

/// Returns the component with these values for its indices, of which the first has this number.
pub fn with_indices(bytes: &[u8], next: &mut usize, to: &To<'_>) -> Vec<u8> {
    by_items(bytes, |items, place, mut item| {
        if let ItemTree::Component(nested) = item {
            return items.raw(&with_indices(&nested, next, to)).map(drop);
        }
        let mut is_changed = false;
        item.indices_mut(|used| {
            if let Some(index) = to(*next) {
                (*used.index, is_changed) = (index, true);
            }
            *next += 1;
        });
        if is_changed { items.item(&item) } else { items.raw(&bytes[place]) }.map(drop)
    })
}

fn with_index(component: &[u8], number: usize, value: u32) -> Vec<u8> {
    with_indices(component, &mut 0, &|of| (of == number).then_some(value))
}

/// How each index is used in the component and in those in it, in their order.
fn uses(component: &[u8]) -> Vec<UsedIndex> {
    let mut uses = Vec::new();
    for item in Walk::new(component, LIMIT).expect("it is a component").items() {
        item.expect("it is read").view.node().each_index(|used| uses.push(used));
    }
    uses
}

/// Expects that the item at the place has this index.
fn expect_place(component: &[u8], found: OutOfRange) {
    let items = Walk::new(component, LIMIT).expect("it is a component").items();
    let mut items = items.map(|item| item.expect("it is read"));
    let item = items.find(|item| item.range.start == found.place).expect("an item").view;
    let mut has_it = false;
    item.node().each_index(|used| {
        has_it |= (used.space, used.scope, used.index) == (found.space, found.scope, found.index);
    });
    assert!(has_it, "{found:?} {item:?}");
}

/// Raises each index of the component in turn to the number of those in its space. Returns their
/// spaces, with these components.
fn each_raised(name: &str, component: &[u8]) -> Vec<(Space, Vec<u8>)> {
    assert_eq!(found(component), [], "{name}");
    let uses = uses(component);
    let far = found(&with_indices(component, &mut 0, &|_| Some(u32::MAX)));
    assert_eq!(far.len(), uses.len(), "{name}");
    let mut raised = Vec::new();
    for (number, (used, far)) in uses.into_iter().zip(far).enumerate() {
        assert!(u64::from(used.index) < far.count, "{name}: {used:?} {far:?}");
        let end = u32::try_from(far.count).expect("they are few");
        let changed = with_index(component, number, end);
        let [found_one] = found(&changed)[..] else { panic!("{name}: {used:?} is {end}") };
        let OutOfRange { space, scope, index, count, .. } = found_one;
        assert_eq!((space, scope, index), (used.space, used.scope, end), "{name}");
        assert_eq!((far.space, far.scope, far.count), (space, scope, count), "{name}");
        // below that, it isn't found
        if number % 8 == 0 {
            expect_place(&changed, found_one);
            assert_eq!(found(&with_index(component, number, end - 1)), [], "{name}: {used:?}");
        }
        raised.push((space, changed));
    }
    raised
}

/// The validator finds the index of the space.
fn is_refused(linker: &Linker, (space, raised): &(Space, Vec<u8>)) {
    let cause = linker.refuses(raised);
    let cause = cause.unwrap_or_else(|| panic!("{space:?}: valid"));
    assert!(cause.contains("out of bounds") || cause.contains("unknown"), "{cause}");
}

/// Changes each index that counts in this component.
fn renumber(items: &mut [ItemTree], mut to: impl FnMut(Space, u32) -> u32) {
    for item in items {
        let mut change = |used: IndexUse<'_>| {
            if used.scope == Scope::Component(0) {
                *used.index = to(used.space, *used.index);
            }
        };
        item.indices_mut(&mut change);
        assert_eq!(item.outer_indices_mut(LIMIT, &mut change), Ok(()));
    }
}

/// A core module that exports a function, a table, a memory, a global and a tag.
fn module() -> Vec<u8> {
    let sections: [(u8, &[u8]); 8] = [
        (1, b"\x02\x60\0\0\x60\x01\x7c\0"),
        (3, b"\x01\0"),
        (4, b"\x01\x70\0\0"),
        (5, b"\x01\x04\0"),
        (13, b"\x01\0\x01"),
        (6, b"\x01\x7d\0\x43\0\0\0\0\x0b"),
        (7, b"\x05\x01f\0\0\x01t\x01\0\x01m\x02\0\x01g\x03\0\x01x\x04\0"),
        (10, b"\x01\x02\0\x0b"),
    ];
    let mut module = Module::new();
    for (id, data) in sections {
        module.section(&RawSection { id, data });
    }
    module.finish()
}

const KINDS: [(&str, Kind); 6] = [
    ("m", Kind::Module),
    ("f", Kind::Func),
    ("v", Kind::Value),
    ("t", Kind::Type),
    ("i", Kind::Instance),
    ("c", Kind::Component),
];

/// A component with items in each space, of which each has another number, and an index in each.
fn of_each_space() -> Vec<u8> {
    let mut builder = ComponentBuilder::default();
    let module = builder.core_module_raw(None, &module());
    let instance = builder.core_instantiate(None, module, []);
    let kinds = [
        ("f", ExportKind::Func),
        ("m", ExportKind::Memory),
        ("t", ExportKind::Table),
        ("x", ExportKind::Tag),
        ("g", ExportKind::Global),
    ];
    for (count, (name, kind)) in (2..).zip(kinds) {
        for _ in 0..count {
            builder.core_alias_export(None, instance, name, kind);
        }
    }
    builder.core_instantiate_exports(None, kinds.map(|(name, kind)| (name, kind, 0)));
    builder.core_instantiate(None, module, [("m", ModuleArg::Instance(instance))]);
    let (ty, mut function) = builder.type_function(None);
    function.params([] as [(&str, ComponentValType); 0]).result(None);
    for _ in 0..7 {
        builder.lift_func(None, 0, ty, []);
        builder.core_type(None).1.core().function([], []);
    }
    builder.core_type(None).1.module(&ModuleType::new());
    builder.import("front-m", ComponentTypeRef::Module(7));
    builder.import("front-v", ComponentTypeRef::Value(PrimitiveValType::U8.into()));
    let component = builder.component_raw(None, b"\0asm\x0d\0\x01\0");
    for _ in 0..8 {
        builder.instantiate(None, component, [] as [(&str, Kind, u32); 0]);
        builder.type_defined(None).1.primitive(PrimitiveValType::Char);
    }
    builder.instantiate(None, component, KINDS.map(|(name, kind)| (name, kind, 0)));
    builder.finish()
}

/// Items in front of all others move the indices of these in each space by another number. Returns
/// how many indices there are in them.
fn is_moved(name: &str, bytes: &[u8], front: &Listing, linker: Option<&Linker>) -> usize {
    let encoded =
        |items: &[ItemTree]| built(&items.iter().cloned().map(Command::from).collect::<Vec<_>>());
    let mut by = [0; 13];
    for item in front.sections.iter().flat_map(|of| &of.items) {
        let (space, count) = item.defined_indices().expect("it defines some");
        by[space.number()] += count;
    }
    let mut all: Vec<ItemTree> =
        list(bytes).expect(name).sections.into_iter().flat_map(|of| of.items).collect();
    let mut indices = 0;
    all.iter_mut().for_each(|item| item.indices_mut(|_| indices += 1));
    renumber(&mut all, |space, index| index + by[space.number()]);
    let front: Vec<ItemTree> = front.sections.iter().flat_map(|of| &of.items).cloned().collect();
    let moved = encoded(&[&front[..], &all].concat());
    if let Some(linker) = linker {
        assert_eq!(linker.refuses(&moved), None, "{name}");
    }
    let mut again: Vec<ItemTree> =
        list(&moved).expect("it is listed").sections.into_iter().flat_map(|of| of.items).collect();
    assert_eq!(again.drain(..front.len()).collect::<Vec<_>>(), front, "{name}");
    renumber(&mut again, |space, index| {
        index.checked_sub(by[space.number()]).expect("it was moved")
    });
    assert!(encoded(&again) == bytes, "{name}: other bytes");
    indices
}

#[test]
fn indices_are_raised_and_moved() {
    let (linker, of_each_space) = (linker("indices"), of_each_space());
    let front = list(&of_each_space).expect("it is listed");
    let raised = each_raised("each space", &of_each_space);
    for space in Space::ALL {
        assert!(raised.iter().any(|(of, _)| *of == space), "{space:?}");
    }
    let mut components = corpus::components();
    components.retain(|(_, bytes)| list(bytes).is_ok());
    let found = side_by_side(components.len(), |at| {
        let (name, bytes) = &components[at];
        (is_moved(name, bytes, &front, linker.as_ref()), each_raised(name, bytes))
    });
    let (indices, raised): (Vec<_>, Vec<_>) = found.into_iter().unzip();
    let (indices, raised) = (indices.iter().sum::<usize>(), raised.concat());
    assert_eq!((components.len(), indices, raised.len()), (40, 2707, 3498));
    let faults = side_by_side(raised.len() / 4, |at| {
        let (space, raised) = &raised[4 * at + 3];
        is_missing("raised", *space, raised)
    });
    assert!(faults.iter().sum::<usize>() > 1_000, "{faults:?}");
    let Some(linker) = linker else { return };
    // The validator is a process for each.
    let refused = side_by_side(raised.len() / 16, |at| is_refused(&linker, &raised[16 * at + 15]));
    assert_eq!(refused.len(), 218);
}
