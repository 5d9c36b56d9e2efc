//! Calls while memory is refused.

use super::{NONE, is_behind};
use wenc::*;
use wenc_calls::refuse::refusing;

/// The call succeeds without memory.
#[track_caller]
fn without_memory<T>(call: impl FnOnce() -> Result<T, Error>) -> T {
    let (result, was_refused) = refusing(0, call);
    assert!(!was_refused, "it takes memory");
    result.expect("it takes no memory")
}

#[test]
fn the_end_takes_no_memory() {
    let mut b = ComponentBuilder::default();
    b.import("f", ComponentTypeRef::Func(0));
    b.export("g", ComponentExportKind::Func, 0, None);
    let bytes = without_memory(|| b.try_finish());
    is_behind(&bytes, "0a 06 01 00 01 66 01 00 0b 07 01 00 01 67 01 00 00");
    let mut b = ComponentBuilder::default();
    without_memory(|| b.try_append_names());
    is_behind(&without_memory(|| b.try_finish()), "");
}

#[test]
fn refused_parameters_are_passed_again() {
    let mut types = ComponentTypeSection::new();
    let mut ty = types.function();
    let (refused, was_refused) = refusing(0, || ty.try_params(NONE).map(|_| ()));
    assert_eq!((refused, was_refused), (Err(Error::NoMemory), true));
    ty.params(NONE).result(None);
    let mut component = Component::new();
    component.section(&types);
    is_behind(component.as_slice(), "07 05 01 40 00 01 00");
}

#[test]
fn a_type_is_given_up_without_memory() {
    let mut b = ComponentBuilder::default();
    b.type_function(None).1.async_(true).params(NONE);
    assert!(without_memory(|| Ok(b.discard_unfinished())));
    assert_eq!(b.type_count(), 0);
    is_behind(&b.finish(), "");
}
