//! Worlds as WIT: with each allocation failing in turn, with a text that can't be written, and with
//! each limit.

use super::refusing;
use rows::rows;
use std::fmt::{self, Write};
use wenc::scope::Definitions;
use wenc::wit::{Why, WitError, world};

#[allow(dead_code, reason = "its texts are for another test")]
#[path = "../../../programs/wenc-dump/tests/dump/wit/rows.rs"]
mod rows;

/// A text with room for this many bytes, which isn't kept.
struct Room(usize);

impl Write for Room {
    fn write_str(&mut self, text: &str) -> fmt::Result {
        self.0 = self.0.checked_sub(text.len()).ok_or(fmt::Error)?;
        Ok(())
    }
}

/// The components of all rows, and a package.
fn components() -> impl Iterator<Item = (&'static str, Vec<u8>)> {
    let rows = rows().into_iter().map(|row| (row.name, row.component));
    rows.chain([("package", rows::package())])
}

#[test]
fn no_memory_is_an_error() {
    for (name, component) in components() {
        let definitions = Definitions::new(&component, 100).expect("a component");
        let mut requests = 0;
        loop {
            let write = || world(&definitions, 1 << 20, &mut Room(1 << 20), &mut |_| {});
            let (written, is_refused) = refusing(requests, write);
            if !is_refused {
                assert_eq!(written, Ok(()), "{name}");
                break;
            }
            assert_eq!(written, Err(WitError::NoMemory), "{name}, request {requests}");
            requests += 1;
        }
        assert!(requests > 10, "{name}: {requests} requests");
    }
}

#[test]
fn a_text_that_is_not_written_is_an_error() {
    for (name, component) in components() {
        let definitions = Definitions::new(&component, 100).expect("a component");
        let (mut text, mut room) = (String::new(), 0);
        assert_eq!(world(&definitions, 1 << 20, &mut text, &mut |_| {}), Ok(()));
        while room < text.len() {
            let written = world(&definitions, 1 << 20, &mut Room(room), &mut |_| {});
            assert_eq!(written, Err(WitError::Write), "{name}, {room} bytes");
            room += 7;
        }
    }
}

/// A text has no more bytes than its limit, but for the last comment and the braces that are open
/// then; it is the beginning of the whole one.
#[test]
fn a_text_is_as_long_as_its_limit() {
    for (name, component) in components() {
        let definitions = Definitions::new(&component, 100).expect("a component");
        let mut whole = String::new();
        assert_eq!(world(&definitions, 1 << 20, &mut whole, &mut |_| {}), Ok(()));
        for limit in 0..whole.len() {
            let (mut text, mut last) = (String::new(), None);
            assert_eq!(
                world(&definitions, limit, &mut text, &mut |note| last = Some(note)),
                Ok(())
            );
            assert_eq!(last.map(|note| note.why), Some(Why::Limit), "{name}, {limit} bytes");
            let (begin, end) = text.rsplit_once("// ").expect("a comment");
            assert!(begin.trim_end().len() <= limit, "{name}, {limit} bytes: {text}");
            assert!(end.len() < 80, "{text}");
            let braces = |brace| text.matches(brace).count();
            assert_eq!(braces('{'), braces('}'), "{text}");
        }
        let mut text = String::new();
        assert_eq!(world(&definitions, 1 << 14, &mut text, &mut |_| {}), Ok(()));
        assert_eq!(text, whole, "{name}");
    }
}
