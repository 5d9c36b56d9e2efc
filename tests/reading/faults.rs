//! What errors say.

use crate::component;
use wenc::*;

/// What is found in place of a component's header.
#[test]
fn headers() {
    let rows: [(&[u8], &str); 10] = [
        (b"", "nothing"),
        (b"\0asm\x01\0\0\0", "a core module"),
        (b"\0asm\x01\0\0\0\x01", "a core module"),
        (b"\0asm\x0c\0\x01\0", "another version of the format: version 0x1000c"),
        (b"\0asm\x0d\0\x01", "other bytes: 00 61 73 6d 0d 00 01"),
        (b"\0asn\x0d\0\x01\0\xff", "other bytes: 00 61 73 6e 0d 00 01 00"),
        (b"(component)", "WebAssembly text"),
        (b"\n ;; a comment", "WebAssembly text"),
        (b" ;", "other bytes: 20 3b"),
        (b"   ", "other bytes: 20 20 20"),
    ];
    for (bytes, found) in rows {
        let error = list(bytes).unwrap_err();
        assert_eq!(error.to_string(), format!("no component's header at 0x0: found {found}"));
        assert_eq!(Sections::new(bytes).err(), Some(error));
        assert_eq!(Walk::new(bytes, 0).err(), Some(error));
    }
    let error = CoreSections::new(&Component::HEADER).unwrap_err().to_string();
    assert_eq!(error, "no core module's header at 0x0: found a component");
}

#[test]
fn errors_say_what_they_are() {
    let rows: [(&[u8], &str); 9] = [
        (b"\x06", "bad section at 0x8: the bytes end at 0x9"),
        (b"\x0c\x01\0", "unknown section 12 at 0x8"),
        (
            b"\0\x01\x07",
            "custom section without a name at 0x8: needs 7 bytes or more from 0xb on, where 0 are left",
        ),
        (
            b"\x08\x01\x03",
            "bad item 0 at 0xb in the section at 0x8: the section ends where a canonical function \
             is expected",
        ),
        (
            b"\x0a\x05\x01\0\x02a\xff",
            "bad item 0 at 0xb in the section at 0x8: 0xff at 0xe isn't UTF-8",
        ),
        (
            b"\x0a\x05\x01\0\x03ab",
            "bad item 0 at 0xb in the section at 0x8: needs 3 bytes or more from 0xd on, where 2 \
             are left",
        ),
        (
            b"\x06\x05\xff\xff\xff\xff\x1f",
            "bad count at 0xa in the section at 0x8: the number at 0xa has more than 32 bits",
        ),
        (b"\x06\x02\0\0", "bytes behind the last item at 0xb in the section at 0x8"),
        (b"\x09\x01\xff", "bad item 0 at 0xa in the section at 0x8: the bytes end at 0xb"),
    ];
    for (sections, text) in rows {
        let error: Box<dyn std::error::Error> = list(&component(sections)).unwrap_err().into();
        assert_eq!(error.to_string(), text);
    }
    assert_eq!(ReadError::from(Error::NoMemory).to_string(), "no memory");
    let error = ReadError::from(Error::TooMany);
    assert_eq!(error.to_string(), "a nested component isn't encoded: too many");
    assert!(ReadError::from(Error::NoMemory).is_memory() && !error.is_memory());
}

/// A section of each kind but those whose items are all bytes, with one item that isn't read.
#[test]
fn errors_say_what_is_expected() {
    let expected = [
        (2, "a core instance"),
        (3, "a core type"),
        (5, "an instance"),
        (6, "an alias"),
        (7, "a type"),
        (8, "a canonical function"),
        (10, "an import"),
        (11, "an export"),
    ];
    for (id, item) in expected {
        let error = list(&component(&[id, 2, 1, 0xff])).unwrap_err().to_string();
        let place = "bad item 0 at 0xb in the section at 0x8";
        assert_eq!(error, format!("{place}: 0xff where {item} is expected"));
    }
    let error = list(&component(&[9, 0])).unwrap_err().to_string();
    let place = "bad item 0 at 0xa in the section at 0x8";
    assert_eq!(error, format!("{place}: the section ends where a start function is expected"));
}
