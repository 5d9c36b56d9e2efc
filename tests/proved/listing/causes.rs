//! Why bytes can't be read: the byte offset, what is found there and the sentence.

use super::refusals::refusal;
use crate::proved::wenc_read::Expected;
use crate::{Cause, Format, Part, ReadError};
use std::string::ToString;
use std::vec::Vec;

/// What has so many bytes left at the byte offset 4, where other bytes are behind.
fn cause(left: usize, expected: Expected) -> Cause {
    Cause::new(b"ab\xffdef", 4, refusal(left, expected))
}

#[test]
fn causes() {
    let Cause::Byte { place: 1, byte: b'b', expected } = cause(3, Expected::From(2, 4)) else {
        panic!("it is a byte")
    };
    assert_eq!(expected.ranges().collect::<Vec<_>>(), [2..=4]);
    let end = cause(1, Expected::End);
    assert!(matches!(end, Cause::Byte { place: 3, byte: b'd', .. }));
    assert_eq!(end.to_string(), "0x64 at 0x3, where the end is expected");
    assert_eq!(cause(2, Expected::Utf8), Cause::Text { place: 2, byte: 0xff });
    assert_eq!(cause(4, Expected::Bits(32)), Cause::Number { place: 0, bits: 32 });
    assert_eq!(cause(3, Expected::Bytes(9)), Cause::Few { place: 1, needed: 9, len: 3 });
    // what is behind the end isn't there
    let few = Cause::Few { place: 4, needed: 1, len: 0 };
    for expected in [Expected::Bytes(1), Expected::Utf8, Expected::Type, Expected::End] {
        assert_eq!(cause(0, expected), few);
    }
    // no place is before the bytes
    assert_eq!(cause(5, Expected::Utf8), Cause::Text { place: 0, byte: b'a' });
}

#[test]
fn causes_are_moved() {
    let Cause::Byte { expected, .. } = cause(4, Expected::Type) else { panic!("it is a byte") };
    let of = |by: usize| {
        [
            Cause::Byte { place: 3 + by, byte: 1, expected },
            Cause::Text { place: 3 + by, byte: 0xff },
            Cause::Number { place: 3 + by, bits: 64 },
            Cause::Few { place: 3 + by, needed: 7, len: 2 },
            Cause::Deep { place: 3 + by },
        ]
    };
    assert_eq!(of(0).map(|cause| cause.moved(10)), of(10));
    assert_eq!(of(0).map(|cause| cause.place()), [3, 3, 3, 5, 3].map(Some));
    let last = usize::MAX;
    assert_eq!(of(0).map(|cause| cause.moved(last).place()), [Some(last); 5]);
}

#[test]
fn causes_are_sentences() {
    let of = |left, expected| cause(left, expected).to_string();
    let byte = "0x61 at 0x0, where 0x3f to 0x43, 0x63 to 0x6b or 0x6d to 0x7f is expected";
    assert_eq!(of(4, Expected::Type), byte);
    let byte = "0x61 at 0x0, where 0x00 or 0x02 is expected";
    assert_eq!(of(4, Expected::ExportOrOuter), byte);
    assert_eq!(of(4, Expected::From(3, 4)), "0x61 at 0x0, where 0x03 to 0x04 is expected");
    assert_eq!(of(2, Expected::Utf8), "0xff at 0x2 isn't UTF-8");
    assert_eq!(of(3, Expected::Bits(32)), "the number at 0x1 has more than 32 bits");
    assert_eq!(of(0, Expected::Bytes(1)), "the bytes end at 0x4");
    let few = "needs 2 bytes or more from 0x4 on, where 0 are left";
    assert_eq!(of(0, Expected::Bytes(2)), few);
    let few = "needs 2 bytes or more from 0x3 on, where 1 is left";
    assert_eq!(of(1, Expected::Bytes(2)), few);
    let few = "needs 3 bytes or more from 0x2 on, where 2 are left";
    assert_eq!(of(2, Expected::Bytes(3)), few);
    let deep = Cause::Deep { place: 300 }.to_string();
    assert_eq!(deep, "the type at 0x12c is in 100 others");
}

/// For an item's first byte, the message names the item that is expected.
#[test]
fn first_bytes_of_items() {
    let byte = |place| {
        let Cause::Byte { expected, .. } = cause(4, Expected::From(2, 4)) else {
            panic!("it is a byte")
        };
        Cause::Byte { place, byte: 9, expected }
    };
    let few = |place, needed, len| Cause::Few { place, needed, len };
    let rows = [
        (byte(11), "0x09 where a type is expected"),
        (byte(12), "0x09 at 0xc, where 0x02 to 0x04 is expected"),
        (few(11, 1, 0), "the section ends where a type is expected"),
        (few(12, 1, 0), "the bytes end at 0xc"),
        (few(11, 3, 2), "needs 3 bytes or more from 0xb on, where 2 are left"),
    ];
    for (cause, wanted) in rows {
        let (format, part) = (Format::Component, Part::Item(0));
        let fault = ReadError { format, section: 8, id: Some(7), offset: 11, part, cause };
        let item = "bad item 0 at 0xb in the section at 0x8: ";
        assert_eq!(fault.to_string().strip_prefix(item), Some(wanted));
    }
}
