//! Values that can't be encoded.

use crate::proved::proved_parts::strangers::own::Item;
use crate::proved::tests::sweeping::check;
use crate::proved::wenc_base::{Encode, Fault, Tagged, encode_list};
use crate::proved::wenc_parts::ComponentSection;
use std::vec;

pub const OPEN: Item = Item { is_open: true };

const ENDED: Item = Item { is_open: false };

/// More than a count can be.
pub const LARGE: usize = 4294967296;

/// It can't be encoded, and the sink is unchanged.
fn is_refused<T: Encode>(value: &T, fault: Fault) {
    let mut sink = vec![0x99];
    assert_eq!(value.encode(&mut sink), Err(fault));
    assert_eq!(sink.as_slice(), [0x99]);
}

const SECOND_OPEN: &[(u32, Item)] = &[(1, ENDED), (2, OPEN)];

const SECOND_LARGE: &[usize] = &[1, LARGE];

const THREE: &[usize] = &[1, LARGE, 2];

const BOTH_OPEN: &[(usize, Item)] = &[(1, OPEN), (LARGE, OPEN)];

const BEGUN: &[(usize, Option<Item>)] = &[(1, Some(OPEN)), (LARGE, None)];

const LATE: &[(usize, Option<Item>)] = &[(LARGE, Some(OPEN)), (1, None)];

// Before the bytes that precede it, and before a section's id. The first error is returned. The
// second value of an iterator fails after the text of the first.
#[test]
fn refusals() {
    is_refused(&OPEN, Fault::Unfinished);
    is_refused(&Tagged(0x2a, &OPEN), Fault::Unfinished);
    is_refused(&Some(OPEN), Fault::Unfinished);
    is_refused(&(OPEN, 1u32), Fault::Unfinished);
    is_refused(&LARGE, Fault::TooMany);
    is_refused(&(OPEN, LARGE), Fault::Unfinished);
    is_refused(&(LARGE, OPEN), Fault::TooMany);
    is_refused(&SECOND_OPEN, Fault::Unfinished);
    is_refused(&SECOND_LARGE, Fault::TooMany);
    is_refused(&THREE, Fault::TooMany);
    is_refused(&BOTH_OPEN, Fault::Unfinished);
    is_refused(&BEGUN, Fault::Unfinished);
    is_refused(&LATE, Fault::TooMany);
    check(&(1u32, ENDED), &[0x01]);
    let mut sink = vec![0x99];
    assert_eq!(encode_list(SECOND_LARGE.iter().copied(), &mut sink), Err(Fault::TooMany));
    assert_eq!(OPEN.append_to_component(&mut sink), Err(Fault::Unfinished));
    assert_eq!(sink.as_slice(), [0x99]);
}
