//! Public calls that no call of the facade makes, each against bytes in hexadecimal. No allocation
//! fails.

mod members;
mod parents;
mod program;

use crate::proved::tests::hex::digits;
use crate::proved::wenc_base::Encode;
use crate::proved::wenc_parts::ComponentSection;
use crate::shim::alloc::Global;
use crate::shim::vec::{Vec, VecUsing};

/// The value is written as these bytes.
fn is<T: Encode>(value: &T, wanted: &str) {
    let mut sink = Vec::new_using(Global);
    value.encode(&mut sink).unwrap();
    assert_eq!(digits(&sink), wanted);
}

/// The section has this id and these bytes in a component.
fn section_is<S: ComponentSection>(section: &S, id: u8, wanted: &str) {
    let mut sink = Vec::new_using(Global);
    section.append_to_component(&mut sink).unwrap();
    assert_eq!((section.id(), digits(&sink).as_str()), (id, wanted));
}
