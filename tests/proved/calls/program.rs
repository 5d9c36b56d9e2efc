//! The calls of which runs of the program are made.

use crate::proved::tests::hex::digits;
use crate::proved::wasm_encoder::{CanonTree, ComponentTypeRef, Fault, ListFault};
use crate::proved::wenc::builtin::builtin;
use crate::proved::wenc::failure::Failure;
use crate::proved::wenc::kind::{kind, reference};
use crate::proved::wenc::list::run_list;
use crate::proved::wenc::number::flag;
use crate::proved::wenc::output::{send, send_with_hex, write_with_status};
use crate::proved::wenc::program::{report, translate};
use crate::proved::wenc::script::build;
use crate::proved::wenc::unlisted::Unlisted;
use crate::proved::wenc::words::Words;
use crate::shim::alloc::{AllocError, Global};
use std::vec::Vec as RustVec;

const SCRIPT: &[u8] = b"start 7 4294967295\nimport v value 0\n";

#[test]
fn scripts() {
    let built = build(Global, Global, SCRIPT).unwrap();
    assert_eq!(built.answers.as_slice(), [Ok(Some(0)), Err(Fault::TooMany)]);
    assert_eq!(digits(&built.bytes), "0061736d0d00010009070700ffffffff0f");
    let text = SCRIPT.to_vec();
    let printout = translate(Global, Global, text).unwrap();
    assert_eq!(printout.status, 2);
    assert_eq!(printout.lines.as_slice(), b"0\nrefused 2\n");
    assert_eq!(digits(&printout.bytes), "0061736d0d00010009070700ffffffff0f");
}

#[test]
fn lists() {
    let (mut out, mut err) = (RustVec::new(), RustVec::new());
    let mut input = b"0061736d0d000100060501".as_slice();
    assert_eq!(run_list(Global, &mut input, &mut out, &mut err), 3);
    assert_eq!((out.as_slice(), err.as_slice()), (b"".as_slice(), b"BadSection at 8\n".as_slice()));
}

#[test]
fn writes() {
    let mut out = RustVec::new();
    send(&mut out, b"a\n").unwrap();
    send_with_hex(&mut out, b"b\n", &[0x2a]).unwrap();
    assert_eq!(write_with_status(&mut out, b"c\n", 3), 3);
    assert_eq!(report(Global, &mut out, Failure::BadLine(1)), 1);
    assert_eq!(out, b"a\nb\n2a\nc\nline 1\n");
}

#[test]
fn words() {
    let mut words = Words::of("stream.cancel-read 9 1");
    assert_eq!(words.three(), Some(("stream.cancel-read", "9", "1")));
    let verb = words.next().unwrap();
    let canon = CanonTree::StreamCancelRead { ty: 9, async_: true };
    assert_eq!(builtin(verb, words), Some(canon));
    assert_eq!((words.next(), words.next(), words.next()), (Some("9"), Some("1"), None));
    assert_eq!((flag("1"), flag("2")), (Some(true), None));
    let reference = kind("func").map(|kind| reference(kind, 1));
    assert_eq!(reference, Some(ComponentTypeRef::Func(1)));
}

#[test]
fn failures() {
    assert!(matches!(Failure::from(Fault::TooMany), Failure::Fault(Fault::TooMany)));
    assert!(matches!(Failure::from(AllocError), Failure::Fault(Fault::Memory(_))));
    assert!(matches!(Unlisted::from(AllocError), Unlisted::Fault(ListFault::Memory)));
    assert!(matches!(Unlisted::from(ListFault::Memory), Unlisted::Fault(ListFault::Memory)));
}
