//! Cursors and comparisons, with each allocation failing in turn.

use super::{GRANTED, NAME, SINCE, calmly, refusing};
use std::fmt::{self, Debug, Write};
use std::panic::{AssertUnwindSafe, catch_unwind};
use wenc::scope::Definitions;
use wenc::*;

/// The iterator's values with each allocation failing in turn: the value that needs it is this
/// error, and is the last. There are this many allocations.
fn each_is_refused<I, T, E>(start: impl Fn() -> I, no_memory: E, requests: u32)
where
    I: Iterator<Item = Result<T, E>>,
    E: Debug + PartialEq,
{
    for n in 0..=requests {
        let mut values = calmly(&start);
        let (failed, is_refused) = refusing(n, || values.by_ref().find_map(Result::err));
        assert_eq!(is_refused, n < requests, "request {n}");
        assert_eq!(failed.is_some(), is_refused, "request {n}");
        assert!(failed.is_none_or(|error| error == no_memory), "request {n}");
        assert!(values.next().is_none(), "request {n}");
    }
}

/// A core module with an import of a function, an export and a custom section.
const MODULE: &[u8] = b"\0asm\x01\0\0\0\x02\x07\x01\x01m\x01f\0\x05\
    \x07\x05\x01\x01g\0\0\0\x03\x01x\x07";

/// Core modules are read in place.
#[test]
fn core_modules() {
    let sections = || CoreSections::new(MODULE).expect("a module");
    let read = || sections().map(|section| section.expect("a section").items().count()).sum();
    let (items, is_refused): (usize, bool) = refusing(0, read);
    assert_eq!((items, is_refused), (2, false));
}

/// Components nested this deep.
fn nested(count: usize) -> Vec<u8> {
    let inner = (count > 1).then(|| nested(count - 1));
    let section = inner.map(|inner| [&[4, inner.len() as u8], &inner[..]].concat());
    [&Component::HEADER[..], &section.unwrap_or_default()].concat()
}

/// A walk asks for memory where more than eight components are around the next step; one that
/// counts indices at each fourth, or where what it has doubles.
#[test]
fn nested_components() {
    fn error(step: Step<'_>) -> Result<(), ReadError> {
        if let Step::Unread(unread) = step { Err(unread.error) } else { Ok(()) }
    }
    for (count, requests, counted) in [(1, 0, 0), (4, 0, 0), (5, 0, 1), (9, 0, 2), (10, 1, 3)] {
        let component = nested(count);
        let walk = || Walk::new(&component, count).expect("a component");
        assert_eq!(walk().count(), 3 * (count - 1));
        each_is_refused(|| walk().map(error), Error::NoMemory.into(), requests);
        let steps = || walk().counted().expect("there is memory").map(error);
        each_is_refused(steps, Error::NoMemory.into(), counted);
    }
    let component = nested(1);
    let walk = Walk::new(&component, 0).expect("a component");
    let (begun, is_refused) = refusing(0, || walk.counted().map(|_| ()));
    assert_eq!((begun, is_refused), (Err(Error::NoMemory.into()), true));
}

/// What components and their indices are kept for the next ones.
#[test]
fn indices_out_of_range() {
    // a component, and one in which a list is of a type that isn't there
    for (component, found, requests) in [
        (&nested(1)[..], 0, 0),
        (&nested(3), 0, 0),
        (&nested(6), 0, 1),
        (b"\0asm\x0d\0\x01\0\x07\x05\x02\x70\x09\x70\x09", 2, 1),
    ] {
        let all = || Walk::new(component, 8).expect("a component").out_of_range();
        assert_eq!(all().filter(|one| one.is_ok()).count(), found);
        each_is_refused(all, Error::NoMemory.into(), requests);
    }
}

/// What is kept of each definition: scopes, names, types that are read, what isn't followed and
/// what isn't read.
#[test]
fn definitions() {
    // an instance type, and a nested component whose export is of no type, and one that isn't read
    let inner = b"\x04\x15\0asm\x0d\0\x01\0\x0b\x07\x01\0\x01e\x03\x09\0\x08\x02\x01\xff";
    let ty = b"\x07\x09\x01\x42\x01\x04\0\x01f\x03\x01";
    let component = [&Component::HEADER[..], ty, inner].concat();
    let mut faults = calmly(|| Vec::with_capacity(2));
    let mut all = |n| {
        faults.clear();
        let (_, is_refused) =
            refusing(n, || Definitions::past_faults(&component, 8, |fault| faults.push(fault)));
        (faults.last().copied(), is_refused)
    };
    let (read, is_refused) = refusing(u32::MAX, || Definitions::new(&component, 8).err());
    assert!(matches!((read, is_refused), (Some(error), false) if error.section == 38));
    let mut requests = 0;
    while let (last, true) = all(requests) {
        assert_eq!(last, Some(Error::NoMemory.into()), "request {requests}");
        requests += 1;
    }
    assert_eq!(all(requests).0, read);
    // scopes, open ones, definitions, names before and after sorting, types, and faults
    assert!(requests >= 7, "{requests}");
}

/// A writer that discards what is printed.
struct Nowhere;

impl Write for Nowhere {
    fn write_str(&mut self, _: &str) -> fmt::Result {
        Ok(())
    }
}

/// What a call returns or panics with if its allocation number `n` fails, and whether it has such
/// an allocation.
fn refused<T>(n: u32, call: impl Fn() -> T) -> (Result<T, Option<String>>, bool) {
    GRANTED.set(Some(n));
    let result = catch_unwind(AssertUnwindSafe(call));
    let is_refused = GRANTED.take().is_none();
    SINCE.set(None);
    (result.map_err(|panic| panic.downcast_ref::<String>().cloned()), is_refused)
}

fn no_memory<T>() -> Result<T, Option<String>> {
    Err(Some("no memory".to_owned()))
}

#[test]
fn headers() {
    assert_eq!(refused(0, Component::new), (no_memory(), true));
    assert_eq!(refused(1, Component::new), (Ok(Component::new()), false));
    assert_eq!(refused(0, Module::new), (no_memory(), true));
    assert_eq!(refused(1, Module::new), (Ok(Module::new()), false));
}

/// Comparing or printing by the bytes panics if these can't be allocated.
#[test]
fn contents() {
    let mut imports = ComponentImportSection::new();
    imports.import(NAME, ComponentTypeRef::Func(0));
    let other = imports.clone();
    for n in [0, 1] {
        assert_eq!(refused(n, || imports == other), (no_memory(), true));
    }
    assert_eq!(refused(2, || imports == other), (Ok(true), false));
    let is_printed = || write!(Nowhere, "{imports:?}").is_ok();
    assert_eq!(refused(0, is_printed), (no_memory(), true));
    assert_eq!(refused(1, is_printed), (Ok(true), false));
}
