//! What readers say of how many values they have, over real, random and damaged components.

use crate::{corpus, features, random};
use std::iter::FusedIterator;
use wenc::tree::Node;
use wenc::view::{CoreTypeView, DefinedView, InstanceView, ItemView, TypeView};
use wenc::*;

/// How many values were counted, and how many are faults.
#[derive(Default)]
struct Seen {
    values: usize,
    faults: usize,
    lists: usize,
}

impl Seen {
    /// Each hint is kept, and there is nothing after the end. Returns the values.
    fn hinted<I: FusedIterator>(&mut self, mut values: I) -> Vec<I::Item> {
        let (mut hints, mut all) = (vec![values.size_hint()], Vec::new());
        while let Some(value) = values.next() {
            all.push(value);
            hints.push(values.size_hint());
        }
        assert!(values.next().is_none() && values.size_hint().0 == 0);
        for (at, (least, most)) in hints.into_iter().enumerate() {
            let left = all.len() - at;
            assert!(
                least <= left && most.is_none_or(|most| left <= most),
                "{least} {left} {most:?}"
            );
        }
        self.values += all.len();
        all
    }

    /// Returns the values up to the fault, which is the last.
    fn read<T, E>(&mut self, values: impl FusedIterator<Item = Result<T, E>>) -> Vec<T> {
        let all = self.hinted(values);
        let len = all.len();
        let read: Vec<T> = all.into_iter().map_while(Result::ok).collect();
        assert!(read.len() + 1 >= len);
        self.faults += len - read.len();
        read
    }

    /// The length is that of the values that are left.
    fn exact<I: ExactSizeIterator + FusedIterator>(&mut self, mut values: I) {
        self.lists += 1;
        for left in (0..values.len()).rev() {
            assert!(values.next().is_some());
            assert_eq!((values.len(), values.size_hint()), (left, (left, Some(left))));
        }
        assert!(values.next().is_none() && values.len() == 0);
    }

    fn lists(&mut self, item: ItemView<'_>) {
        match item {
            ItemView::Type(TypeView::Component(all)) => self.exact(all),
            ItemView::Type(TypeView::Instance(all)) => self.exact(all),
            ItemView::Type(TypeView::Func { params, .. }) => self.exact(params),
            ItemView::Type(TypeView::Defined(DefinedView::Record(fields))) => self.exact(fields),
            ItemView::CoreType(CoreTypeView::Module(all)) => self.exact(all),
            ItemView::Instance(InstanceView::Exports(all)) => self.exact(all),
            _ => {}
        }
        let mut node = item.node();
        while let Node::Variant(_, part) = node {
            node = part.node();
        }
        if let Node::Struct(_, fields) = node {
            self.hinted(fields.iter());
        }
    }

    fn module(&mut self, module: &[u8]) {
        let Ok(sections) = CoreSections::new(module) else { return };
        for section in self.read(sections) {
            self.read(section.items());
        }
    }

    fn component(&mut self, component: &[u8]) {
        let Ok(sections) = Sections::new(component) else { return };
        self.read(sections.clone().items());
        let Ok(walk) = Walk::new(component, 9) else { return };
        self.read(walk.clone().out_of_range());
        self.read(walk.clone().items());
        self.hinted(DebugNames::of(component).iter());
        for step in self.hinted(walk) {
            match step {
                Step::Section(section) => _ = self.read(section.items()),
                Step::Item(item) => {
                    self.lists(item.view);
                    match item.view {
                        ItemView::Module(module) => self.module(module),
                        ItemView::Custom { name: DebugNames::SECTION, data } => {
                            self.read(NamesReader::new(data));
                        }
                        ItemView::Custom { name: ProducersReader::SECTION, data } => {
                            self.read(ProducersReader::new(data));
                        }
                        _ => {}
                    }
                }
                _ => {}
            }
        }
        self.read(sections);
        let definitions = scope::Definitions::past_faults(component, 9, |_| {});
        let definitions = definitions.instances();
        self.hinted(definitions.component().definitions());
    }
}

#[test]
fn of_whole_components() {
    let mut seen = Seen::default();
    for (_, bytes) in corpus::components() {
        seen.component(&bytes);
        if let Ok(listing) = list(&bytes) {
            seen.hinted(listing.sections.into_iter().flat_map(|of| of.items));
        }
    }
    seen.component(&features::known());
    (1..=4).for_each(|seed| seen.component(&random::components(seed, 2, false).0));
    assert!(seen.values > 20_000 && seen.lists > 2_000, "{} {}", seen.values, seen.lists);
}

/// Components that are cut off, and with a byte changed.
#[test]
fn of_damaged_components() {
    let mut seen = Seen::default();
    for (_, mut bytes) in corpus::components().into_iter().chain([("".into(), features::known())]) {
        for at in (8..bytes.len()).step_by(bytes.len() / 40 + 1) {
            seen.component(&bytes[..at]);
            bytes[at] ^= 0x11;
            seen.component(&bytes);
            bytes[at] ^= 0x11;
        }
    }
    assert!(seen.faults > 5_000, "{}", seen.faults);
}
