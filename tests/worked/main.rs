//! Rows of calls and the bytes that they write, in hexadecimal: literals that were worked out from
//! the format's standard. `tests/calls` composes its bytes instead.

mod builder;
mod listed;
mod refused;
mod runs;
mod sections;
mod type_sections;
mod values;

use runs::hex;
use wenc::tree::{Command, build};
use wenc::*;
use wenc_calls::seen::are_items;

const STRING: ComponentValType = ComponentValType::Primitive(PrimitiveValType::String);

const NONE: [(&str, ComponentValType); 0] = [];

/// What follows the header.
#[track_caller]
fn is_behind(bytes: &[u8], wanted: &str) {
    let wanted = hex(wanted);
    assert!(bytes == [&Component::HEADER[..], &wanted].concat(), "{bytes:x?}, not {wanted:x?}");
}

/// Reads the component, as owned and as borrowed items, and writes its sections and commands again.
#[track_caller]
fn is_listed(bytes: &[u8]) {
    let listing = list(bytes).expect("it is listed");
    are_items(Sections::new(bytes).expect("a component"), &listing);
    let mut again = Component::new();
    listing.sections.iter().for_each(|section| _ = again.section(section));
    assert_eq!(again.as_slice(), bytes);
    let is_empty = |section: &ListedSection| section.items.is_empty();
    if !listing.sections.iter().any(is_empty) {
        let commands: Vec<_> =
            listing.sections.into_iter().flat_map(|of| of.items).map(Command::from).collect();
        assert_eq!(build(&commands).expect("it is built").bytes.as_slice(), bytes);
    }
}
