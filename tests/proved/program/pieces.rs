//! Calls that no run covers in full: lines of results, and the number of reads.

use super::streams::Source;
use crate::proved::wasm_encoder::Fault;
use crate::proved::wenc::input::read_all;
use crate::proved::wenc::print::answer_lines;
use crate::shim::alloc::Global;

#[test]
fn answers_have_lines() {
    let answers = [Ok(Some(0)), Ok(Some(4294967295)), Ok(None), Err(Fault::TooLarge)];
    let lines = answer_lines(Global, &answers).unwrap();
    assert_eq!(lines.as_slice(), b"0\n4294967295\n-\nrefused 3\n");
}

/// Texts, and what four reads of a byte find of them, one of which has to find the end.
const READS: &[(&[u8], Option<&[u8]>)] = &[(b"abc", Some(b"abc")), (b"abcd", None)];

#[test]
fn four_reads_are_enough_for_three_bytes() {
    for (text, wanted) in READS {
        let mut input = Source { rest: text, step: 1, calls: 0, failing: 0 };
        let read = read_all(Global, &mut input, 4).ok();
        assert!(read.as_deref() == *wanted && input.calls == 4);
    }
}
