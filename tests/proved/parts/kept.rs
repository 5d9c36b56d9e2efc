//! Holders with bytes before their members, and sections over them.

use super::holder::{UNFINISHED, is_begun, is_whole};
use super::refusals::OPEN;
use crate::proved::proved_parts::holders::{
    aliases, filled, functions, gone_back, over_four_bytes, unfinished_aliases,
};
use crate::proved::tests::sweeping::check;
use crate::proved::wenc_base::{Fault, Holder, Verbatim};
use crate::proved::wenc_canon::AddsBuiltin;
use crate::proved::wenc_parts::{Alias, ComponentOuterAliasKind};
use crate::shim::alloc::Global;
use std::vec;

/// What the holder has after the bytes before its members.
const OVER: &[u8] = &[0x03, 0x01, 0x03, 0x00];

/// It is made of these bytes, `kept` of which are kept, and `count` members.
fn has_parts(holder: Holder, bytes: &[u8], kept: usize, count: u32) -> bool {
    let parts = holder.into_parts();
    (parts.0.as_slice(), parts.1, parts.2, parts.3) == (bytes, kept, count, true)
}

#[test]
fn behind_bytes() {
    let holder = gone_back(Global).unwrap();
    is_whole(&holder, 1, OVER);
    assert!(has_parts(holder, &[0xaa, 0xbb, 0x03, 0x00], 2, 1));
    let mut holder = filled(Global).unwrap();
    is_whole(&holder, 1, OVER);
    assert_eq!(holder.kept(), [0xcc].as_slice());
    holder.add_encoded(&42u32).unwrap();
    is_whole(&holder, 2, &[0x04, 0x02, 0x03, 0x00, 0x2a]);
    assert!(has_parts(holder, &[0xcc, 0x03, 0x00, 0x2a], 1, 2));
}

// The next member is the first after the bytes that are kept. An unfinished one isn't kept.
#[test]
fn all_are_kept() {
    let mut holder = over_four_bytes(Global).unwrap();
    assert_eq!(holder.kept_len(), 2);
    holder.open(&[0x2a]).unwrap();
    assert_eq!(holder.keep_all(&Verbatim(&[0x10])), Err(Fault::Unfinished));
    is_begun(&holder, 2, &[0x03, 0x00, 0x2a], true);
    assert!(holder.kept_len() == 2 && holder.discard_unfinished());
    is_whole(&holder, 1, OVER);
    assert_eq!(holder.keep_all(&Verbatim(&[0x10, 0x11])), Ok(4));
    assert_eq!(holder.kept_len(), 6);
    is_whole(&holder, 0, &[0x01, 0x00]);
    holder.add_encoded(&42u32).unwrap();
    is_whole(&holder, 1, &[0x02, 0x01, 0x2a]);
    assert!(has_parts(holder, &[0xaa, 0xbb, 0x03, 0x00, 0x10, 0x11, 0x2a], 6, 1));
}

// What follows is written after the bytes that moved up. The next member is the first after it.
#[test]
fn bytes_after_all_that_is_kept() {
    let mut holder = over_four_bytes(Global).unwrap();
    holder.keep_bytes(0, 2, &[0xcc], &[0x10], &[0x11, 0x12]).unwrap();
    assert_eq!(holder.kept_len(), 6);
    is_whole(&holder, 0, &[0x01, 0x00]);
    holder.add_encoded(&42u32).unwrap();
    assert!(has_parts(holder, &[0xcc, 0x03, 0x00, 0x10, 0x11, 0x12, 0x2a], 6, 1));
}

// A holder is made of bytes again, goes back, and is cut back.
#[test]
fn over_bytes() {
    let mut holder = over_four_bytes(Global).unwrap();
    assert_eq!(holder.keep_all(&Verbatim(&[0x10, 0x11])), Ok(4));
    holder.go_back(2, 4, 1);
    holder.fill_kept(0, 2, &[0xcc]);
    let (bytes, kept, count, _) = holder.into_parts();
    assert_eq!((bytes.as_slice(), kept, count), (&[0xcc, 0x03, 0x00][..], 1, 1));
    let mut holder = Holder::over(bytes, 1, 1);
    holder.cut_back(0, 0);
    is_whole(&holder, 0, &[0x01, 0x00]);
    assert_eq!(holder.kept(), [0xcc].as_slice());
    // As many members as can be counted, all without bytes.
    let (bytes, kept, _, _) = holder.into_parts();
    let mut holder = Holder::over(bytes, kept, u32::MAX);
    assert_eq!(holder.add_encoded(&42u32), Err(Fault::TooMany));
    let values = || [42u32].into_iter();
    assert_eq!(holder.add_listed(&42u32, values(), &42u32), Err(Fault::TooMany));
    assert_eq!(holder.add_listed(&OPEN, values(), &42u32), Err(Fault::Unfinished));
    assert!(has_parts(holder, &[0xcc], 1, u32::MAX));
}

// A section has at most 4294967295 bytes. Pages of zeros that are never read take no memory.
#[test]
fn members_of_the_largest_section() {
    let mut bytes = vec![0; 1 << 32];
    bytes.truncate((1 << 32) - 3);
    let mut holder = Holder::over(bytes, 0, 1);
    assert_eq!(holder.add(&[0x2a, 0x2a]), Err(Fault::TooLarge));
    assert_eq!(holder.open(&[0x2a, 0x2a]), Err(Fault::TooLarge));
    holder.add(&[0x2a]).unwrap();
    assert_eq!(holder.add(&[0x2a]), Err(Fault::TooLarge));
    assert_eq!(holder.open(&[0x2a]), Err(Fault::TooLarge));
    holder.add(&[]).unwrap();
    let (bytes, kept, count, is_finished) = holder.into_parts();
    assert_eq!((bytes.len(), kept, count, is_finished), (4294967294, 0, 3, true));
}

// The number of 200 members takes two bytes.
#[test]
fn parts_of_the_largest_section() {
    let mut bytes = vec![0; 1 << 32];
    bytes.truncate((1 << 32) - 4);
    let mut holder = Holder::over(bytes, 0, 200);
    holder.open(&[]).unwrap();
    holder.append(&[1]).unwrap();
    assert_eq!(holder.append(&[2]), Err(Fault::TooLarge));
}

const OUTER_TYPE: Alias<'static> =
    Alias::Outer { kind: ComponentOuterAliasKind::Type, count: 0, index: 1 };

// A section's bytes don't include those that are kept.
#[test]
fn under_sections() {
    let mut section = aliases(Global).unwrap();
    check(&section, b"\x06\x01\x01\x00\x00\x01\x66");
    section.alias(OUTER_TYPE).unwrap();
    check(&section, b"\x0a\x02\x01\x00\x00\x01\x66\x03\x02\x00\x01");
    let bytes = b"\xaa\xbb\x01\x00\x00\x01\x66\x03\x02\x00\x01";
    assert!(has_parts(section.into_holder(), bytes, 2, 2));
    let mut section = unfinished_aliases(Global).unwrap();
    assert_eq!(section.alias(OUTER_TYPE), UNFINISHED);
    let (bytes, kept, count, is_finished) = section.into_holder().into_parts();
    assert_eq!((bytes.as_slice(), kept), (&b"\xaa\xbb\x01\x00\x00\x01\x66\x03"[..], 2));
    assert_eq!((count, is_finished), (2, false));
    let mut section = functions(Global).unwrap();
    check(&section, &[0x02, 0x01, 0x05]);
    section.resource_drop(0).unwrap();
    check(&section, &[0x04, 0x02, 0x05, 0x03, 0x00]);
    assert!(has_parts(section.into_holder(), &[0xaa, 0xbb, 0x05, 0x03, 0x00], 2, 2));
}
