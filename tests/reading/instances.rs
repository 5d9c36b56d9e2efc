//! Random components of instances of components: which resource types are the same, and from which
//! imports they come, by the resolver and by an evaluator.

mod evaluated;
mod made;

use evaluated::{Kind, Members, Value, instantiate};
use made::{Shape, Shapes};
use std::collections::{BTreeMap, HashMap};
use std::hash::Hash;
use std::iter;
use wenc::scope::{Definition, Definitions, Instances, Meaning};
use wenc::tree::Space;
use wenc::view::ItemView;

/// Where a resource type comes from: the name of an import, and those of exports from there on.
type Origin = Vec<String>;

/// Values for these imports, whose resource types are new; each is kept with where it comes from.
fn imported(shapes: &Shapes, path: &[String], origins: &mut Vec<Origin>) -> Members {
    let value = |(name, shape): (&String, &Shape)| {
        let path = [path, std::slice::from_ref(name)].concat();
        let value = match shape {
            Shape::Instance(inner) => Value::Instance(imported(inner, &path, origins).into()),
            _ => {
                origins.push(path);
                Value::Resource(origins.len() - 1)
            }
        };
        (name.clone(), value)
    };
    shapes.iter().map(value).collect()
}

/// The resource types of an instance, and those of its instances, in the order of their names.
fn reached(found: &mut Vec<Option<usize>>, members: &Members, depth: u32) {
    for value in members.values() {
        match value {
            Value::Resource(number) => found.push(Some(*number)),
            Value::OtherType => found.push(None),
            Value::Instance(inner) if depth > 0 => reached(found, inner, depth - 1),
            _ => {}
        }
    }
}

/// The number of each type and of each that an instance exports, and the imports of the first ones.
fn expected(ops: &[evaluated::Op], shapes: &Shapes) -> (Vec<Option<usize>>, Vec<Origin>) {
    let mut origins = Vec::new();
    let arguments = imported(shapes, &[], &mut origins);
    let mut next = origins.len();
    let (here, _) = instantiate(ops, &arguments, None, &mut next);
    let (spaces, mut found) = (here.spaces.borrow(), Vec::new());
    for value in &spaces[Kind::Type as usize] {
        found.push(if let Value::Resource(number) = value { Some(*number) } else { None });
    }
    for value in &spaces[Kind::Instance as usize] {
        let Value::Instance(members) = value else { panic!("it is an instance") };
        reached(&mut found, members, 4);
    }
    (found, origins)
}

fn of_instance<'s>(found: &mut Vec<Definition<'s, 's>>, of: Definition<'s, 's>, depth: u32) {
    let exports = of.exports().expect("it is followed").expect("it has exports");
    let is_import =
        |of: &Definition| matches!(of.meaning(), Meaning::Item(ItemView::Import { .. }));
    let exports = exports.definitions().filter(|of| !is_import(of));
    let named = exports.filter_map(|of| Some((of.name()?, of))).collect::<BTreeMap<_, _>>();
    for (_, of) in named {
        match of.space() {
            Some(Space::Types) => found.push(of),
            Some(Space::Instances) if depth > 0 => of_instance(found, of, depth - 1),
            _ => {}
        }
    }
}

/// The types in the same order.
fn types<'s>(instances: &'s Instances<'s, 's>) -> Vec<Definition<'s, 's>> {
    let scope = instances.component();
    let all = |space| {
        let count = scope.count(space).expect("they are read");
        (0..count).map(move |index| scope.get(space, index as u32).expect("it is there"))
    };
    let mut found = all(Space::Types).collect();
    all(Space::Instances).for_each(|of| of_instance(&mut found, of, 4));
    found
}

/// The number of pairs of resource types that are the same by one and not by the other.
fn differ<K: Hash + Eq>(expected: &[Option<usize>], found: impl Iterator<Item = K>) -> usize {
    let (mut of_key, mut keys_of, mut differ) = (HashMap::new(), HashMap::new(), 0);
    for (number, (class, key)) in expected.iter().zip(found).enumerate() {
        let Some(class) = class else { continue };
        let (first, other) =
            (*of_key.entry(key).or_insert(number), *keys_of.entry(class).or_insert(number));
        differ += usize::from(first != other);
    }
    differ
}

/// Where a definition comes from.
fn origin(of: Definition<'_, '_>) -> Option<Origin> {
    let last = of.resolve().expect("it is followed");
    let import = of.origin().expect("it is followed")?;
    let path = iter::successors(Some(last), |of| of.instance());
    let mut path: Vec<_> = path.map(|of| of.name().unwrap_or_default().to_owned()).collect();
    assert_eq!(path.last().map(String::as_str), import.name());
    path.reverse();
    Some(path)
}

#[test]
fn resources_are_those_of_an_evaluator() {
    let (mut seen, mut same, mut imported, mut mistakes) = (0, 0, 0, [0; 2]);
    for seed in 0..1_000 {
        let (bytes, ops, imports) = made::component(seed);
        let (expected, origins) = expected(&ops, &imports);
        let definitions = Definitions::new(&bytes, 100).expect("it is read");
        let instances = definitions.instances();
        let types = types(&instances);
        assert_eq!(types.len(), expected.len(), "{seed}");
        let last: Vec<_> = types.iter().map(|of| of.resolve().expect("it is followed")).collect();
        assert_eq!(differ(&expected, last.iter()), 0, "{seed}");
        for (of, class) in types.iter().zip(&expected) {
            let Some(class) = class else { continue };
            assert_eq!(origin(*of).as_ref(), origins.get(*class), "{seed} {of:?}");
            imported += usize::from(origins.get(*class).is_some());
            seen += 1;
        }
        same += seen_twice(&expected);
        // two mistakes are seen: the instance isn't part of what it is, or the argument isn't
        // passed
        mistakes[0] += differ(&expected, last.iter().map(|of| of.place()));
        mistakes[1] += differ(&expected, types.iter().map(|of| of.target().ok().flatten()));
    }
    assert!(seen > 20_000 && same > 10_000 && imported > 5_000, "{seen} {same} {imported}");
    assert!(mistakes.iter().all(|count| *count > 1_000), "{mistakes:?}");
}

/// The number of resource types that are the same as an earlier one.
fn seen_twice(classes: &[Option<usize>]) -> usize {
    let all: Vec<_> = classes.iter().flatten().collect();
    all.len() - all.iter().collect::<std::collections::BTreeSet<_>>().len()
}
