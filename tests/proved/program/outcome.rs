//! Runs of the program, and how they end.

use super::streams::{Sink, Source};
use crate::proved::tests::refusing::{Refusing, unplanned};
use crate::proved::wenc::program::run_with_allocators;
use crate::proved::wenc::run;
use crate::shim::alloc::Global;
use crate::shim::string::{String, StringUsing};
use crate::shim::vec::{Vec, VecUsing};

/// How a run ends: its status, and what its output and its standard error get.
pub type End = (u8, &'static [u8], &'static [u8]);

/// How a run with other arguments ends. Nothing is read then.
pub const USAGE: End = (1, b"", b"usage\n");

/// A run, and what it read and wrote.
pub struct Outcome<'a> {
    pub status: u8,
    pub input: Source<'a>,
    pub out: Sink,
    pub err: Sink,
}

impl Outcome<'_> {
    /// The run ended so.
    pub fn is(&self, end: &End) -> bool {
        let (status, out, err) = *end;
        let is_read = *end != USAGE;
        self.status == status
            && self.out.has(out)
            && self.err.has(err)
            && (self.input.calls > 0) == is_read
    }
}

fn words(args: &[&str]) -> Vec<String> {
    let mut words = Vec::new_using(Global);
    for word in args {
        let word = String::from_str(Global, word).unwrap();
        words.push(word);
    }
    words
}

/// Runs the program, where there is a `heap` with its memory, but for the names of the commands.
/// Each read and write moves at most `step` bytes. The calls with these numbers fail, of the input,
/// the output and the standard error.
pub fn run_program<'a>(
    heap: Option<Refusing>,
    args: &[&str],
    text: &'a [u8],
    step: usize,
    failing: [usize; 3],
) -> Outcome<'a> {
    let words = unplanned(|| words(args));
    let words = words.as_slice();
    let mut input = Source { rest: text, step, calls: 0, failing: failing[0] };
    let mut out = Sink::new(step, failing[1]);
    let mut err = Sink::new(step, failing[2]);
    let status = match heap {
        None => run(Global, words, &mut input, &mut out, &mut err),
        Some(heap) => run_with_allocators(heap, Global, words, &mut input, &mut out, &mut err),
    };
    Outcome { status, input, out, err }
}

/// The run ends so, whether much or little is moved at once.
pub fn expect(name: &str, args: &[&str], text: &[u8], end: &End) {
    for step in [1, usize::MAX] {
        let ran = run_program(None, args, text, step, [0; 3]);
        assert!(ran.is(end), "{name}");
    }
}
