//! Runs that want memory.

use super::outcome::{End, run_program};
use crate::proved::tests::refusing::Refusing;

const FAULT: End = (2, b"", b"fault 1\n");

const UNLISTED: End = (3, b"", b"Memory\n");

/// Runs, by their arguments and texts, and how they end with no memory at all. Only one request is
/// made, so the report of the fault takes none.
const WITHOUT: &[(&[&str], &[u8], End)] = &[
    (&[], b"", FAULT),
    (&[], b"import f func 0\nexport g func 0\n", FAULT),
    (&["list"], b"0061736d0d000100", UNLISTED),
];

/// A run with each of its allocations failing in turn.
struct Sweep {
    args: &'static [&'static str],
    text: &'static [u8],
    /// How it ends if none fails.
    whole: End,
    /// How it may end if one fails, each at least this often.
    refused: &'static [(End, u8)],
}

const SWEEPS: &[Sweep] = &[
    // The command itself returns `Memory` if there is no room for its item, and the run continues.
    Sweep {
        args: &[],
        text: b"import an-interface-with-a-long-name func 0\n",
        whole: (
            0,
            b"0\n0061736d0d0001000a2201001d616e2d696e746572666163652d776974682d612d6c6f6e672d6e616d650100\n",
            b"",
        ),
        refused: &[(FAULT, 1), ((2, b"refused 1\n0061736d0d000100\n", b""), 1)],
    },
    // The text that is read, and the text of the report.
    Sweep {
        args: &[],
        text: b"\n\nx",
        whole: (1, b"", b"line 3\n"),
        refused: &[(FAULT, 2)],
    },
    // The text, its bytes, the sections, and for each its items and a name; and what is printed.
    Sweep {
        args: &["list"],
        text: b"0061736d0d0001000a060100016601000b0701000167010000",
        whole: (0, b"10 1\n11 1\n0 0 0 0 0 0 0 0 2 0 0 0 0\n", b""),
        refused: &[(UNLISTED, 8)],
    },
    // The text, its bytes and the report.
    Sweep {
        args: &["list"],
        text: b"0061736d0d000100060501",
        whole: (3, b"", b"BadSection at 8\n"),
        refused: &[(UNLISTED, 3)],
    },
    // The text. The report of a bad one takes no memory.
    Sweep {
        args: &["list"],
        text: b"0",
        whole: (1, b"", b"line 1\n"),
        refused: &[(UNLISTED, 1)],
    },
];

/// Each allocation fails in turn, until none is left.
fn refuse_each(heap: Refusing, row: &Sweep) {
    let mut ends = std::vec![0; row.refused.len()];
    for n in 1..200 {
        heap.refuse_nth(n);
        let ran = run_program(Some(heap), row.args, row.text, usize::MAX, [0; 3]);
        if !heap.was_refused() {
            assert!(ran.is(&row.whole) && row.refused.iter().zip(ends).all(|(of, n)| n >= of.1));
            return;
        }
        let end = row.refused.iter().position(|(end, _)| ran.is(end));
        ends[end.expect("one of these")] += 1;
    }
    panic!("each of 199 requests was refused")
}

#[test]
fn runs_want_memory() {
    let heap = Refusing::new();
    for (args, text, end) in WITHOUT {
        heap.refuse_all();
        let ran = run_program(Some(heap), args, text, usize::MAX, [0; 3]);
        assert!(ran.is(end) && heap.was_refused() && heap.requests() == 1);
    }
    for row in SWEEPS {
        refuse_each(heap, row);
    }
    heap.refuse_none();
}
