//! What may stand in place of a byte.

use wenc::{Cause, Items};

/// Returns what may stand at this position of an item of a component's section with this id, if not
/// all bytes may: what its reader says of another one there.
pub fn expected(id: u8, item: &mut [u8], at: usize) -> Option<String> {
    let byte = std::mem::replace(item.get_mut(at)?, 0xff);
    let mut items = Items::at(item, id, 0..item.len(), 1)?;
    let cause = items.next().and_then(Result::err).map(|error| error.cause);
    item[at] = byte;
    match cause? {
        Cause::Byte { place, expected, .. } if place == at => Some(expected.to_string()),
        _ => None,
    }
}
