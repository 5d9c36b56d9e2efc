//! What values of the crate encode themselves as.

use wenc::{Component, ComponentSection, Encode};

pub fn encoded(value: &(impl Encode + ?Sized)) -> Vec<u8> {
    let mut bytes = Vec::new();
    value.encode(&mut bytes);
    bytes
}

/// A component with this section alone, by each call that writes it.
pub fn written(section: &impl ComponentSection) -> [Vec<u8>; 3] {
    let (mut whole, mut appended) = (Component::new(), Component::HEADER.to_vec());
    whole.section(section);
    section.append_to_component(&mut appended);
    let encoded = [&Component::HEADER[..], &[section.id()], &encoded(section)].concat();
    [whole.finish(), appended, encoded]
}
