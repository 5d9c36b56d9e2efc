//! Members of a holder.

use super::refusals::{LARGE, OPEN};
use crate::proved::tests::sweeping::check;
use crate::proved::wenc_base::{Encode, Fault, Holder, Parent, Verbatim};
use crate::shim::alloc::Global;
use crate::shim::vec::{Vec, VecUsing};
use std::vec;

pub type Answer = Result<(), Fault>;

const MANY: Answer = Err(Fault::TooMany);

pub const UNFINISHED: Answer = Err(Fault::Unfinished);

fn add_list<L: Encode, F: Encode>(to: &mut Holder, lead: &L, list: &[usize], tail: &F) -> Answer {
    to.add_listed(lead, list.iter().copied(), tail)
}

fn append_list(to: &mut Holder, lead: &[u8], list: &[usize]) -> Answer {
    to.append_list(lead, list.iter().copied())
}

fn end_with_list<T: Encode + Copy>(to: &mut Holder, lead: &[u8], list: &[T]) -> Answer {
    to.end_with_list(lead, list.iter().copied())
}

/// It is finished, with `count` members. It encodes to this section, which has less than 128 bytes
/// after its size and less than 128 members; its list is what follows the size, and its bytes are
/// what follows the count.
pub fn is_whole(holder: &Holder, count: u32, section: &[u8]) {
    assert!(holder.is_finished() && !holder.is_opened() && holder.len() == count);
    let mut sink = Vec::new_using(Global);
    holder.encode_section(&mut sink).unwrap();
    assert_eq!(sink.as_slice(), section);
    check(holder, &section[1..]);
    assert_eq!(holder.as_slice(), &section[2..]);
}

/// A member is being written, of which the lead is there, or more. Neither a section nor a list can
/// be encoded.
pub fn is_begun(holder: &Holder, count: u32, body: &[u8], is_opened: bool) {
    assert!(!holder.is_finished() && holder.is_opened() == is_opened);
    assert_eq!(holder.len(), count);
    assert_eq!(holder.as_slice(), body);
    let mut sink = vec![0x99];
    assert_eq!(holder.encode_section(&mut sink), UNFINISHED);
    assert_eq!(holder.encode(&mut sink), UNFINISHED);
    assert_eq!(sink.as_slice(), [0x99]);
}

const LIST: &[usize] = &[1, 128];

const NONE: &[usize] = &[];

// A member without bytes is counted too.
fn add_members(to: &mut Holder) -> Answer {
    to.add(&[0xaa, 0xbb])?;
    to.add_encoded(&("f", 128u32))?;
    add_list(to, &true, LIST, &"g")?;
    to.add(&[])?;
    to.add_encoded(&())?;
    add_list(to, &(), NONE, &())
}

const SIX: &[u8] = &[
    0x0f, 0x06, 0xaa, 0xbb, 0x01, 0x66, 0x80, 0x01, 0x01, 0x02, 0x01, 0x80, 0x01, 0x01, 0x67, 0x00,
];

// With 128 members the count has two bytes, and with 126 bytes after it so has the size.
#[test]
fn members() {
    let mut holder = Holder::new(Global);
    is_whole(&holder, 0, &[0x01, 0x00]);
    add_members(&mut holder).unwrap();
    is_whole(&holder, 6, SIX);
    holder = Holder::new(Global);
    for _ in 0..128u32 {
        holder.add_encoded(&42u32).unwrap();
    }
    let mut sink = Vec::new_using(Global);
    holder.encode_section(&mut sink).unwrap();
    let wanted = [&[0x82, 0x01, 0x80, 0x01][..], &[0x2a; 128]].concat();
    assert_eq!(sink.as_slice(), wanted);
}

const ONE: &[u8] = &[0x02, 0x01, 0xaa];

// Each of these has a part that can't be encoded, some after parts that were written. The first
// error is returned, and the holder is unchanged. While a member is being written, none can be
// added or opened.
#[test]
fn refused_members() {
    let mut holder = Holder::new(Global);
    let to = &mut holder;
    to.add_encoded(&Verbatim(&[0xaa])).unwrap();
    assert_eq!(to.add_encoded(&LARGE), MANY);
    assert_eq!(to.add_encoded(&(1u32, LARGE)), MANY);
    assert_eq!(to.add_encoded(&OPEN), UNFINISHED);
    assert_eq!(add_list(to, &LARGE, &[1], &()), MANY);
    assert_eq!(add_list(to, &1u32, &[1, LARGE], &()), MANY);
    assert_eq!(add_list(to, &1u32, &[1], &LARGE), MANY);
    assert_eq!(add_list(to, &OPEN, &[LARGE], &LARGE), UNFINISHED);
    assert_eq!(add_list(to, &1u32, &[LARGE], &OPEN), MANY);
    is_whole(to, 1, ONE);
    to.open(&[1]).unwrap();
    assert_eq!(to.add_encoded(&Verbatim(&[9])), UNFINISHED);
    assert_eq!(to.add_encoded(&9u32), UNFINISHED);
    assert_eq!(to.add_encoded(&LARGE), UNFINISHED);
    assert_eq!(add_list(to, &1u32, &[2], &()), UNFINISHED);
    assert_eq!(to.open(&[9]), UNFINISHED);
    assert_eq!(to.open(&[]), UNFINISHED);
    is_begun(to, 2, &[0xaa, 1], true);
}

// A piece that can't be encoded, in part or as a whole, leaves the member unchanged.
#[test]
fn refused_pieces() {
    let mut holder = Holder::new(Global);
    let to = &mut holder;
    to.open(&[1]).unwrap();
    assert_eq!(to.append_encoded(&LARGE), MANY);
    assert_eq!(to.append_encoded(&("f", LARGE)), MANY);
    assert_eq!(to.append_encoded(&OPEN), UNFINISHED);
    assert_eq!(append_list(to, &[2], &[3, LARGE]), MANY);
    assert_eq!(to.append_between(&LARGE, [3usize].into_iter(), &()), MANY);
    assert_eq!(to.append_between(&2u32, [3, LARGE].into_iter(), &()), MANY);
    assert_eq!(to.append_between(&2u32, [3usize].into_iter(), &LARGE), MANY);
    assert_eq!(to.append_between(&OPEN, [3usize].into_iter(), &()), UNFINISHED);
    assert_eq!(to.end_with(&LARGE), MANY);
    assert_eq!(end_with_list(to, &[2], &[3, LARGE]), MANY);
    is_begun(to, 1, &[1], true);
    to.append_encoded(&Verbatim(&[])).unwrap();
    is_begun(to, 1, &[1], true);
    to.end_with(&2u32).unwrap();
    is_whole(to, 1, &[3, 1, 1, 2]);
}
