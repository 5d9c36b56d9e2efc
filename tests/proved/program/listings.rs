//! The command `list`: what is printed for components, and for texts that aren't components.

use super::outcome::{End, USAGE, expect};
use super::worked::{LISTED, UNLISTED, hex};
use crate::proved::tests::hex::digits;
use crate::proved::wenc::list::list_text;
use crate::proved::wenc::unlisted::Unlisted;
use crate::proved::wenc_list::ListFault;
use crate::shim::alloc::Global;
use std::format;
use std::string::String;

/// A text in hexadecimal, and how its listing ends.
type Text = (String, u8, &'static str, &'static str);

fn texts() -> impl Iterator<Item = Text> {
    let listed =
        LISTED.map(|(bytes, out)| (format!("0061736d0d000100{}", digits(&hex(bytes))), 0, out, ""));
    let unlisted = UNLISTED.map(|(bytes, err)| (digits(&hex(bytes)), 3, "", err));
    listed.into_iter().chain(unlisted)
}

/// Texts that aren't hexadecimal digits, an even number of them, followed by at most one LF.
const BAD: &[&[u8]] = &[
    b"0",
    b"0061736d0d00010",
    b"0g",
    b"-",
    b"0x00",
    b" 00",
    b"00 ",
    b"00 00",
    b"\n00",
    b"00\r\n",
    b"00\n\n",
    b"\n\n",
    b"\xff\xff",
];

#[test]
fn texts_are_listed() {
    for (text, status, out, err) in texts() {
        let end = (status, out.as_bytes(), err.as_bytes());
        for text in [text.clone(), text.to_ascii_uppercase(), format!("{text}\n")] {
            expect(&text, &["list"], text.as_bytes(), &end);
        }
    }
}

/// Whether the program prints this for the fault.
fn is_said(fault: ListFault, said: &str) -> bool {
    let (name, place) = match fault {
        ListFault::NotAComponent { place } => ("NotAComponent", place),
        ListFault::BadSection { place } => ("BadSection", place),
        ListFault::BadItem { place } => ("BadItem", place),
        ListFault::TooDeep { place } => ("TooDeep", place),
        ListFault::Memory => return false,
    };
    said == format!("{name} at {place}\n")
}

/// `list_text` returns what the program prints, or why it prints nothing.
#[test]
fn texts_are_listed_by_a_call() {
    for (text, _, out, err) in texts() {
        match list_text(Global, text.as_bytes()) {
            Ok(printed) => assert_eq!((printed.as_slice(), err), (out.as_bytes(), "")),
            Err(Unlisted::Fault(fault)) => assert!(is_said(fault, err), "{text}"),
            Err(_) => panic!("{text}"),
        }
    }
    for text in BAD {
        let printed = list_text(Global, text);
        assert!(matches!(printed, Err(Unlisted::BadText)), "{text:?}");
    }
}

/// Arguments that the program rejects.
const OTHERS: &[&[&str]] = &[
    &["x"],
    &[""],
    &["List"],
    &["lists"],
    &["list "],
    &["list", "x"],
    &["list", "list"],
    &["x", "list"],
];

/// Texts of the two uses.
const OF_USES: &[&[u8]] = &[b"0061736d0d000100", b"import f func 0\n"];

const BAD_TEXT: End = (1, b"", b"line 1\n");

#[test]
fn bad_texts_and_other_arguments() {
    for text in BAD {
        expect("a bad text", &["list"], text, &BAD_TEXT);
    }
    for args in OTHERS {
        for text in OF_USES {
            expect("other arguments", args, text, &USAGE);
        }
    }
}
