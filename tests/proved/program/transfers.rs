//! Reads and writes that fail: nothing follows them.

use super::outcome::run_program;

/// A stream of a run.
enum Stream {
    Input,
    Output,
    Report,
}

/// Runs, by their arguments and texts, with a stream whose calls fail in turn, so many of them.
const FAILING: &[(&[&str], &[u8], Stream, usize)] = &[
    // Sixteen reads of one byte, and one that finds the end.
    (&[], b"import f func 0\n", Stream::Input, 17),
    (&["list"], b"0061736d0d000100", Stream::Input, 17),
    // Sixteen digits, the end of the line, and a flush.
    (&[], b"", Stream::Output, 18),
    // Thirteen counts of one digit with the spaces and the end of the line, and a flush.
    (&["list"], b"0061736d0d000100", Stream::Output, 27),
    // The bytes of a report, and a flush.
    (&[], b"x", Stream::Report, 8),
    (&["list"], b"", Stream::Report, 20),
    (&["list"], b"x", Stream::Report, 8),
];

/// The run fails. Each call moves at most `step` bytes. The calls with the numbers in `failing`
/// fail, and `calls` are made in all, of the input, the output and the standard error; 0 stands for
/// any number of reads.
fn fails(args: &[&str], text: &[u8], step: usize, failing: [usize; 3], calls: [usize; 3]) {
    let ran = run_program(None, args, text, step, failing);
    let [reads, writes, reports] = calls;
    assert!(ran.status == 4 && (reads == 0 || ran.input.calls == reads));
    assert!(ran.out.calls == writes && ran.err.calls == reports);
}

/// Runs of an empty text whose writes take nothing, by their arguments, and the calls that come.
const TAKING_NOTHING: &[(&[&str], [usize; 3])] = &[(&[], [1, 1, 0]), (&["list"], [1, 0, 1])];

#[test]
fn each_call_fails() {
    for (args, text, stream, calls) in FAILING {
        for n in 1..=*calls {
            let failing = match stream {
                Stream::Input => [n, 0, 0],
                Stream::Output => [0, n, 0],
                Stream::Report => [0, 0, n],
            };
            fails(args, text, 1, failing, failing);
        }
    }
    for (args, calls) in TAKING_NOTHING {
        fails(args, b"", 0, [0; 3], *calls);
    }
}

/// The two uses of the program.
const USES: &[&[&str]] = &[&[], &["list"]];

/// There are as many bytes as there may be reads: the read that finds the end would be one too
/// many.
#[test]
fn the_end_comes_too_late() {
    let text = "\n".repeat(16777216);
    for args in USES {
        let calls = [16777216, 0, 0];
        fails(args, text.as_bytes(), 1, [0; 3], calls);
    }
}
