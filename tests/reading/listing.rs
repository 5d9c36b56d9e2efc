//! What a listing has, by kind.

use crate::component;
use wenc::scope::Definitions;
use wenc::tree::Space;

/// The number of the item that defines an index.
fn item_of(sections: &[u8], space: Space, index: u32) -> Option<usize> {
    let component = component(sections);
    let definitions = Definitions::new(&component, 0).expect("it is read");
    let definitions = definitions.instances();
    let found = definitions.component().get(space, index).ok()?;
    definitions.component().definitions().position(|of| of == found)
}

#[test]
fn each_index_has_its_definition() {
    // a function, no value, three values, another function, one value
    let bytes = b"\x0a\x05\x01\x00\x00\x01\x07\x09\x03\x01\x00\x00\x09\x03\x02\x00\x03\
        \x0a\x05\x01\x00\x00\x01\x08\x09\x03\x03\x00\x01";
    let found = |space, index| item_of(bytes, space, index);
    assert_eq!([0, 1].map(|index| found(Space::Funcs, index)), [Some(0), Some(3)]);
    let of_values = [Some(2), Some(2), Some(2), Some(4), None];
    assert_eq!([0, 1, 2, 3, 4].map(|index| found(Space::Values, index)), of_values);
    assert_eq!((found(Space::Funcs, 2), found(Space::Types, 0)), (None, None));

    let many = b"\x09\x07\x00\x00\xff\xff\xff\xff\x0f\x09\x03\x01\x00\x02";
    let found = |index| item_of(many, Space::Values, index);
    assert_eq!([u32::MAX, u32::MAX - 1].map(found), [Some(1), Some(0)]);
    // values that have no index are no others'
    let many = b"\x09\x07\x00\x00\xff\xff\xff\xff\x0f".repeat(3);
    assert_eq!([0, u32::MAX].map(|index| item_of(&many, Space::Values, index)), [Some(0), Some(1)]);
    let component = component(&many);
    let definitions = Definitions::new(&component, 0).expect("it is read");
    let definitions = definitions.instances();
    assert_eq!(definitions.component().count(Space::Values), Some(3 * u64::from(u32::MAX)));
    assert_eq!(definitions.component().definitions().last().expect("the third").index(), None);
}

#[test]
fn each_space_is_at_its_number() {
    for (number, space) in Space::ALL.into_iter().enumerate() {
        assert_eq!(space.number(), number);
    }
}

/// Sorts are printed in the words of the standard's text format.
#[test]
fn each_space_has_its_sort() {
    let core = ["module", "func", "type", "memory", "table", "instance", "tag", "global"];
    let core = core.map(|word| format!("core {word}"));
    let others = ["func", "instance", "value", "component", "type"].map(str::to_owned);
    assert_eq!(Space::ALL.map(|space| space.to_string()).to_vec(), [&core[..], &others].concat());
    assert_eq!(format!("{:>9}", Space::Funcs), "     func");
}
