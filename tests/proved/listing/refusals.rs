//! The byte at which readers stop, and what they expect there.

use crate::proved::wenc_read::{
    Expected, NestedRefusal, Refusal, byte, flag_of, index_of, u32_of, u64_of,
};
use crate::proved::wenc_view::{ListOf, NameView, View, text_of, type_at};

pub const fn refusal(left: usize, expected: Expected) -> Refusal {
    Refusal { left, expected }
}

#[test]
fn places() {
    let of = Expected::From(2, 4);
    assert_eq!(Refusal::at(b"", of), refusal(0, of));
    assert_eq!(Refusal::at(b"abc", of), refusal(3, of));
    assert_eq!(Refusal::before(b"abc", of), refusal(4, of));
}

/// What else may begin the bytes is said at their first byte alone.
#[test]
fn other_beginnings() {
    let (first, more) = (Expected::ValType, Expected::StorageType);
    let rows = [
        (refusal(3, first), refusal(3, more)),
        (refusal(2, first), refusal(2, first)),
        (refusal(0, Expected::Bytes(1)), refusal(0, Expected::Bytes(1))),
        // a number that is too large begins there
        (refusal(3, Expected::Bits(32)), refusal(3, Expected::Bits(32))),
    ];
    for (before, after) in rows {
        assert_eq!(before.or(b"abc", more), after);
        assert_eq!(NestedRefusal::Flat(before).or(b"abc", more), NestedRefusal::Flat(after));
    }
    assert_eq!(NestedRefusal::TooDeep(3).or(b"abc", more), NestedRefusal::TooDeep(3));
}

/// The cause is a first byte that isn't one of these.
#[test]
fn first_bytes() {
    let within = refusal(1, Expected::Bytes(5));
    for (bytes, is_within) in [(&b"\x01ab"[..], false), (b"\x02ab", true), (b"\x04ab", true)] {
        let wanted = if is_within { within } else { refusal(3, Expected::From(2, 4)) };
        assert_eq!(within.unless_from(2, 4, bytes), wanted);
    }
    assert_eq!(within.unless_from(2, 4, b"\x05a"), refusal(2, Expected::From(2, 4)));
    assert_eq!(within.unless_from(2, 4, b""), within);
}

/// The cause is that there are more values than bytes.
#[test]
fn counts() {
    let of = refusal(1, Expected::Type);
    for (count, wanted) in [(0, of), (3, of), (4, refusal(3, Expected::Bytes(4)))] {
        assert_eq!(of.of_many(b"abc", count), wanted);
        let nested = NestedRefusal::Flat(of).of_many(b"abc", count);
        assert_eq!(nested, NestedRefusal::Flat(wanted));
    }
    assert_eq!(NestedRefusal::TooDeep(3).of_many(b"", 9), NestedRefusal::TooDeep(3));
}

/// For a number that is too large or too long, the cause is at its first byte; for others, where
/// they stop.
#[test]
fn numbers() {
    let bits = |left, bits| Some(refusal(left, Expected::Bits(bits)));
    let ends = Some(refusal(0, Expected::Bytes(1)));
    assert_eq!(byte(b"").err(), ends);
    // with two bytes behind
    assert_eq!(u32_of(b"\xff\xff\xff\xff\x1f\x07\x08").err(), bits(7, 32));
    assert_eq!(u32_of(b"\x80\x80\x80\x80\x80\x00\x07\x08").err(), bits(8, 32));
    assert_eq!(u32_of(b"\x80\x80").err(), ends);
    assert_eq!(u64_of(b"\xff\xff\xff\xff\xff\xff\xff\xff\xff\x02\x07\x08").err(), bits(12, 64));
    assert_eq!(u64_of(b"\x80\x80\x80\x80\x80\x80\x80\x80\x80\x80\x00\x07").err(), bits(12, 64));
    assert_eq!(u64_of(b"\x80\x80").err(), ends);
    let index = |left| Some(refusal(left, Expected::Index));
    assert_eq!(index_of(b"\x40\x07\x08").err(), index(3));
    assert_eq!(index_of(b"\x80\xff\x7f\x07\x08").err(), index(3));
    assert_eq!(index_of(b"\x80\x80\x80\x80\x10\x07\x08").err(), bits(7, 32));
    assert_eq!(index_of(b"\x80\x80\x80\x80\x40\x07\x08").err(), bits(7, 32));
}

#[test]
fn flags_and_texts() {
    let flag = Some(refusal(3, Expected::From(0, 1)));
    assert_eq!(flag_of(b"\x02\x00\x01").err(), flag);
    assert_eq!(<Option<u32>>::view_of(b"\x02\x00\x01").err(), flag);
    // a byte that begins no character, and two incomplete characters
    for text in [&b"\x03a\xffb\x07"[..], b"\x03a\xc3b\x07", b"\x03a\xe2\x82\x07"] {
        assert_eq!(text_of(text).err(), Some(refusal(3, Expected::Utf8)));
    }
    assert_eq!(text_of(b"\x03ab").err(), Some(refusal(2, Expected::Bytes(3))));
    assert_eq!(text_of(b"\x80").err(), Some(refusal(0, Expected::Bytes(1))));
}

/// For a list whose count exceeds the bytes, the cause is at its first member.
#[test]
fn lists_of_too_many() {
    let of = |bytes| <ListOf<'_, u32>>::view_of(bytes).err();
    assert_eq!(of(b"\x05\x01\x02\x80"), Some(refusal(3, Expected::Bytes(5))));
    assert_eq!(of(b"\x03\x01\x02\x80"), Some(refusal(0, Expected::Bytes(1))));
    for kind in [0x41, 0x42] {
        let of = |rest: &[u8]| type_at(1, &[&[kind], rest].concat()).err();
        let wanted = |left, expected| Some(NestedRefusal::Flat(refusal(left, expected)));
        // types, of which the second isn't there
        assert_eq!(of(b"\x05\x01\x7f\x01"), wanted(3, Expected::Bytes(5)));
        assert_eq!(of(b"\x03\x01\x7f\x01"), wanted(0, Expected::Bytes(1)));
        // another type in it, at depth 1
        let deep = Some(NestedRefusal::TooDeep(2));
        assert_eq!(of(b"\x01\x01\x42\x00"), deep);
        assert_eq!(of(b"\x01\x01\x41\x00"), deep);
    }
}

/// Options of a name ascend, so that each limits those after it; there are one to three.
#[test]
fn options_of_names() {
    let of = |options: &[u8]| NameView::view_of(&[b"\x02\x01a", options].concat()).err();
    let from = |left, first, last| Some(refusal(left, Expected::From(first, last)));
    assert_eq!(of(b"\x00\x07"), Some(refusal(2, Expected::OptionCount)));
    assert_eq!(of(b"\x04\x00\x00\x01\x00\x02\x00"), Some(refusal(7, Expected::OptionCount)));
    assert_eq!(of(b"\x80\x01\x00\x00"), Some(refusal(4, Expected::OptionCount)));
    assert_eq!(of(b"\x81\x01\x00\x00"), Some(refusal(4, Expected::Bits(2))));
    assert_eq!(of(b"\x01\x03\x00"), from(2, 0, 2));
    assert_eq!(of(b"\x02\x02\x00\x02\x00"), from(4, 0, 1));
    assert_eq!(of(b"\x02\x01\x00\x01\x00"), from(2, 2, 2));
    assert_eq!(of(b"\x02\x00\x00\x00\x00"), from(2, 1, 2));
    assert_eq!(of(b"\x03\x01\x00\x02\x00"), from(4, 0, 0));
    assert_eq!(of(b"\x03\x00\x00\x02\x00"), from(2, 1, 1));
}
