//! The corpus, listed and built again in each way.

use crate::{corpus, features, random};
use wenc::tree::{Command, ItemTree, build};
use wenc::{Component, ComponentBuilder, Encode, Listing, Part, list};
use wenc_calls::by_items::{by_items, sections};

/// The bytes of a component that these commands make, all of which are accepted.
pub fn built(commands: &[Command]) -> Vec<u8> {
    let built = build(commands).expect("there is memory");
    assert!(built.answers.iter().all(Result::is_ok), "a command is refused");
    built.bytes
}

/// The corpus's components and those that are nested in them, with their names, in their order.
pub fn all() -> Vec<(String, Vec<u8>)> {
    with_nested(corpus::components())
}

/// These and those that are nested in them.
fn with_nested(mut all: Vec<(String, Vec<u8>)>) -> Vec<(String, Vec<u8>)> {
    let mut at = 0;
    while let Some((name, bytes)) = all.get(at) {
        let name = name.clone();
        if let Ok(listing) = list(bytes) {
            let nested =
                listing.sections.into_iter().flat_map(|of| of.items).filter_map(
                    |item| match item {
                        ItemTree::Component(bytes) => Some((format!("{name}, nested"), bytes)),
                        _ => None,
                    },
                );
            all.extend(nested);
        }
        at += 1;
    }
    all
}

/// The component that has these sections as they stand.
fn kept(bytes: &[u8]) -> Vec<u8> {
    let mut component = Component::new();
    for section in sections(bytes) {
        component.section(&section);
    }
    component.finish()
}

/// The component section by section, item by item: of two items in turn one is written anew, and
/// the other kept.
fn in_turn(bytes: &[u8], anew: u32) -> Vec<u8> {
    by_items(bytes, |made, place, item| {
        let is_anew = made.len() % 2 == anew;
        if is_anew { made.item(&item) } else { made.raw(&bytes[place]) }.map(drop)
    })
}

/// The component by the trees of its sections.
fn by_trees(listing: &Listing) -> Vec<u8> {
    let mut component = Component::new();
    for section in &listing.sections {
        component.section(section);
    }
    component.finish()
}

/// The component by the builder.
fn by_builder(commands: &[Command]) -> Vec<u8> {
    let mut builder = ComponentBuilder::default();
    for command in commands {
        builder.command(command).expect("it is accepted");
    }
    builder.finish()
}

/// The component is made again of what is listed of these bytes. Returns how many items it has.
fn is_made_again(name: &str, text: &[u8], bytes: &[u8]) -> usize {
    let listing = list(text).expect(name);
    let trees = by_trees(&listing);
    let commands: Vec<Command> =
        listing.sections.into_iter().flat_map(|of| of.items).map(Command::from).collect();
    let ways = [
        ("trees", trees),
        ("commands", built(&commands)),
        ("a builder", by_builder(&commands)),
        ("items in even places", in_turn(text, 0)),
        ("items in odd places", in_turn(text, 1)),
    ];
    for (way, again) in ways {
        let differs = again.iter().zip(bytes).position(|(one, other)| one != other);
        assert!(again == bytes, "{name}: others by {way}, from byte {differs:?} on");
    }
    commands.len()
}

/// The number, in five bytes.
fn padded(number: usize) -> [u8; 5] {
    let number = u32::try_from(number).expect("it is short");
    let group = |at: usize| (number >> (7 * at)) as u8 & 0x7f | if at < 4 { 0x80 } else { 0 };
    [0, 1, 2, 3, 4].map(group)
}

/// The component with each size and each number of items padded.
fn widened(bytes: &[u8]) -> Vec<u8> {
    let mut wide = Component::HEADER.to_vec();
    for section in sections(bytes) {
        let mut content = section.raw().data;
        let mut count = Vec::new();
        if ![0, 1, 4, 9].contains(&section.id()) {
            section.count().encode(&mut count);
            content = content.strip_prefix(count.as_slice()).expect("it is in front");
            count = padded(section.count() as usize).into();
        }
        let size = padded(count.len() + content.len());
        wide.extend([&[section.id()], &size[..], &count, content].concat());
    }
    assert!(wide.len() >= bytes.len() + 3 * sections(bytes).count());
    wide
}

/// Sections are kept as they stand. Those that are listed are written anew, also if sizes and
/// counts were padded; the others are those in a list.
#[test]
fn all_are_made_again() {
    let (mut told, mut components, mut made) = (Vec::new(), 0, 0);
    for (name, bytes) in all() {
        assert!(kept(&bytes) == bytes, "{name}");
        match list(&bytes) {
            Ok(_) => {
                let wide = widened(&bytes);
                assert!(kept(&wide) == wide, "{name}");
                is_made_again(&name, &wide, &bytes);
                made += is_made_again(&name, &bytes, &bytes);
                components += 1;
            }
            Err(error) if error.part != Part::Section => {
                told.push(format!("{name} BadItem {}", error.section));
            }
            Err(fault) => told.push(format!("{name}: {fault}")),
        }
    }
    let refused = corpus::text("refused.txt");
    let refused = refused.lines().map(|line| line.split(": ").next().expect("a line"));
    assert_eq!(told, refused.collect::<Vec<_>>());
    assert_eq!((components, made), (68, 2555));
    let seeds = (9..=12).map(|seed| (format!("seed {seed}"), random::components(seed, 2, true).0));
    let others = seeds.chain([("features".into(), features::known())]);
    let others = with_nested(others.collect());
    others.iter().for_each(|(name, bytes)| _ = is_made_again(name, bytes, bytes));
    assert_eq!(others.len(), 327);
}
