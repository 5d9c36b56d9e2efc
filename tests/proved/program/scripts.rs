//! Scripts are run, and translated by a call: worked rows, with bytes from elsewhere.

use super::outcome::{End, expect};
use super::vectors::{all, bad};
use super::worked::{SCRIPTS, hex};
use crate::proved::tests::hex::digits;
use crate::proved::tests::listing::built::is_listed;
use crate::proved::wenc::failure::Failure;
use crate::proved::wenc::program::translate;
use crate::shim::alloc::Global;
use std::format;
use std::string::String;

/// The script's translation is what its run prints, or the number of the bad line.
fn is_translated(script: &[u8], (status, out, err): End) {
    match translate(Global, Global, script.to_vec()) {
        Ok(printout) => {
            let line = format!("{}\n", digits(&printout.bytes));
            let printed = [printout.lines.as_slice(), line.as_bytes()].concat();
            assert_eq!((printout.status, &*printed), (status, out));
        }
        Err(Failure::BadLine(line)) => {
            assert_eq!((1, format!("line {line}\n").as_bytes()), (status, err));
        }
        Err(failure) => panic!("{script:?}: {failure:?}"),
    }
}

/// The script has this run.
fn is_run(script: &[u8], end: End) {
    expect(&String::from_utf8_lossy(script), &[], script, &end);
    is_translated(script, end);
    if end.0 != 1 {
        is_listed(end.1);
    }
}

#[test]
fn scripts() {
    for vector in all() {
        is_run(vector.script, (vector.status, vector.out, b""));
    }
    for (script, line) in bad::VECTORS {
        is_run(script, (1, b"", format!("line {line}\n").leak().as_bytes()));
    }
    for (script, status, lines, bytes) in SCRIPTS {
        let out = format!("{lines}0061736d0d000100{}\n", digits(&hex(bytes)));
        is_run(script.as_bytes(), (status, out.leak().as_bytes(), b""));
    }
}
