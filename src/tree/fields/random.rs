//! Random items, by the table of fields, and their reading.

use crate::tree::{
    Box, CoreArrayType, CoreFuncType, CoreStructType, CoreValType, Global, ItemTree, NameOptions,
    NameTree,
};
use crate::{Component, ItemSection, Sections};
use std::fmt::Debug;
use std::format;
use std::string::String;
use std::vec::Vec;

/// Choices that a seed makes.
pub(super) struct Choices {
    state: u64,
    /// How deep lists may still be in one another.
    depth: u32,
}

impl Choices {
    fn new(seed: u64) -> Self {
        Self { state: seed.wrapping_mul(0x9e37_79b9_7f4a_7c15), depth: 5 }
    }

    pub(super) fn below(&mut self, n: usize) -> usize {
        self.state = self.state.wrapping_mul(6_364_136_223_846_793_005).wrapping_add(1);
        (self.state >> 33) as usize % n
    }
}

/// A type with random values.
pub(super) trait Random: Debug {
    fn random(choices: &mut Choices) -> Self;
}

/// Implements `Random` for an enum, by its variants.
macro_rules! random_enum {
    ($ty:ty, {
        $($name:ident $(($one:ident $(: $of:tt)?))? $({ $($field:ident $(: $role:tt)?),+ })?
            $([$($layout:tt)+])? $(in $outer:tt)? $(=> $defined:expr)?),+ $(,)?
    }) => {
        impl crate::tree::fields::random::Random for $ty {
            fn random(choices: &mut crate::tree::fields::random::Choices) -> Self {
                #[allow(unused_variables, reason = "not all variants have fields")]
                let variants: &[fn(&mut crate::tree::fields::random::Choices) -> Self] = &[$(
                    |choices| Self::$name
                        $(({
                            let $one = crate::tree::fields::random::Random::random(choices);
                            $one
                        }))?
                        $({ $($field: crate::tree::fields::random::Random::random(choices)),+ })?
                ),+];
                variants[choices.below(variants.len())](choices)
            }
        }
    };
}

/// Implements `Random` for a struct, by its fields.
macro_rules! random_struct {
    ($name:ident, { $($field:ident $(: $role:tt)?),+ } $($layout:tt)?) => {
        impl crate::tree::fields::random::Random for $name {
            fn random(choices: &mut crate::tree::fields::random::Choices) -> Self {
                Self { $($field: crate::tree::fields::random::Random::random(choices)),+ }
            }
        }
    };
}

pub(super) use {random_enum, random_struct};

random_struct! { CoreStructType, { fields } }
random_struct! { NameOptions, { implements, version_suffix, external_id } }
random_struct! { NameTree, { name, options } }

impl Random for bool {
    fn random(choices: &mut Choices) -> Self {
        choices.below(2) == 0
    }
}

impl Random for u8 {
    fn random(choices: &mut Choices) -> Self {
        choices.below(256) as u8
    }
}

/// Numbers of each length, all lengths equally likely.
impl Random for u32 {
    fn random(choices: &mut Choices) -> Self {
        (choices.below(1 << 31) as u32) << 1 >> choices.below(32)
    }
}

impl Random for u64 {
    fn random(choices: &mut Choices) -> Self {
        u32::random(choices).into()
    }
}

impl Random for String {
    fn random(choices: &mut Choices) -> Self {
        let texts = ["", "a", "wasi:io/streams@0.2.0", "\u{e9}", "\u{10ffff}"];
        let text = texts[choices.below(texts.len())];
        text.into()
    }
}

impl<T: Random> Random for Vec<T> {
    fn random(choices: &mut Choices) -> Self {
        let mut values = Vec::new();
        if choices.depth == 0 {
            return values;
        }
        choices.depth -= 1;
        for _ in 0..choices.below(5) {
            values.push(T::random(choices));
        }
        choices.depth += 1;
        values
    }
}

impl<T: Random> Random for Option<T> {
    fn random(choices: &mut Choices) -> Self {
        bool::random(choices).then(|| T::random(choices))
    }
}

impl<T: Random> Random for Box<T> {
    fn random(choices: &mut Choices) -> Self {
        Box::new(Global, T::random(choices)).expect("memory")
    }
}

impl<A: Random, B: Random> Random for (A, B) {
    fn random(choices: &mut Choices) -> Self {
        (A::random(choices), B::random(choices))
    }
}

impl<A: Random, B: Random, C: Random> Random for (A, B, C) {
    fn random(choices: &mut Choices) -> Self {
        (A::random(choices), B::random(choices), C::random(choices))
    }
}

impl Random for CoreArrayType {
    fn random(choices: &mut Choices) -> Self {
        CoreArrayType(Random::random(choices))
    }
}

impl Random for CoreFuncType {
    fn random(choices: &mut Choices) -> Self {
        let (params, results) = (Vec::<CoreValType>::random(choices), Vec::random(choices));
        CoreFuncType::new(Global, params.iter().copied(), results.iter().copied()).expect("memory")
    }
}

/// The component with this item alone.
fn component(item: &ItemTree) -> Vec<u8> {
    let section = (0..=11).find_map(|id| {
        let mut section = ItemSection::new(id);
        section.item(item).is_ok().then_some(section)
    });
    let mut component = Component::new();
    component.section(&section.expect("a section for the item"));
    component.finish()
}

/// A name whose options are all absent is written as a name without options.
fn has_empty_options(item: &ItemTree) -> bool {
    let empty: NameOptions =
        NameOptions { implements: None, version_suffix: None, external_id: None };
    format!("{item:?}").contains(&format!("{empty:?}"))
}

#[test]
fn random_items_are_read_as_they_were_written() {
    let (mut items, mut indices, mut kinds) = (0, 0, [0; 12]);
    for seed in 0..20_000 {
        let mut item = ItemTree::random(&mut Choices::new(seed));
        if has_empty_options(&item) {
            continue;
        }
        let bytes = component(&item);
        kinds[usize::from(bytes[8])] += 1;
        let mut read = Sections::new(&bytes).expect("a component").items();
        let one = read.next().expect("an item").expect("it is read");
        assert!(read.next().is_none() && one.each_encoded(&bytes, |_, _| {}), "{item:?}");
        let view = one.view;
        assert_eq!(view.to_tree(), item);

        let (mut owned, mut borrowed) = (Vec::new(), Vec::new());
        item.indices_mut(|used| owned.push((used.space, used.scope, *used.index)));
        view.node().each_index(|used| borrowed.push((used.space, used.scope, used.index)));
        assert_eq!(owned, borrowed);
        items += 1;
        indices += owned.len();
    }
    assert!(items > 15_000 && indices > 20_000, "{items} items, {indices} indices");
    assert!(kinds.iter().all(|&number| number > 1_000), "{kinds:?}");
}
