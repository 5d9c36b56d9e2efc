//! Calls with each of their allocations failing in turn: the call has to return the error and
//! change nothing, and has to succeed when it is repeated.

use super::refusing::Refusing;
use crate::proved::wenc_base::{Encode, Fault};
use crate::shim::alloc::AllocError;
use crate::shim::vec::{Vec, VecUsing};

/// The error of a failed allocation.
pub const REFUSED: Fault = Fault::Memory(AllocError);

/// More bytes than the first growth has room for.
pub const TEXT: &[u8] = &[1, 2, 3, 4, 5, 6, 7, 8, 9, 10, 11, 12, 13, 14, 15, 16, 17, 18, 19, 20];

const START: &[u8] = &[1, 2, 3];

/// Makes a call with each of its allocations failing in turn, until it succeeds. Returns its result
/// and the number of allocations.
pub fn refused_in_turn<T>(heap: Refusing, mut call: impl FnMut() -> Result<T, Fault>) -> (T, u64) {
    for n in 1..20 {
        heap.refuse_nth(n);
        let outcome = call();
        if !heap.was_refused() {
            heap.refuse_none();
            return (outcome.unwrap(), n - 1);
        }
        assert_eq!((outcome.err(), heap.requests()), (Some(REFUSED), n));
    }
    panic!("each of 19 requests was refused");
}

/// Encodes the value to a sink that has no room left, with each allocation failing in turn. There
/// is at least one.
pub fn sweep_encode<E: Encode>(value: &E) -> std::vec::Vec<u8> {
    let heap = Refusing::new();
    let mut sink = Vec::from_slice(heap, START).unwrap();
    let ((), requests) = refused_in_turn(heap, || {
        let outcome = value.encode(&mut sink);
        assert!(outcome.is_ok() || sink.as_slice() == START);
        outcome
    });
    assert!(requests > 0);
    sink.strip_prefix(START).unwrap().to_vec()
}

/// The value is encoded as these bytes, whichever allocation failed before. An empty encoding
/// allocates nothing.
pub fn check<E: Encode>(value: &E, wanted: &[u8]) {
    if wanted.is_empty() {
        let heap = Refusing::new();
        let mut sink = Vec::new_using(heap);
        heap.refuse_all();
        value.encode(&mut sink).unwrap();
        assert!(sink.is_empty() && heap.requests() == 0);
        heap.refuse_none();
    } else {
        assert_eq!(sweep_encode(value), wanted);
    }
}

/// Each of these values is encoded as the bytes next to it.
pub fn check_all<E: Encode>(rows: &[(E, &[u8])]) {
    rows.iter().for_each(|(value, wanted)| check(value, wanted));
}
