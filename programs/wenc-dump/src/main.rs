//! The program `wenc-dump`, which prints what components and core modules contain.

use std::env;
use std::fs::File;
use std::hint::black_box;
use std::io::{self, BufWriter, IsTerminal};
use std::process::{Command, ExitCode, Stdio};
use std::str;
use wenc_dump::{NO_MEMORY, Streams, Terminal, colours_are_wanted, run};

/// The number of bytes of stack that suffices for nested components and types. Frames of code that
/// isn't optimized are larger.
const STACK: usize = if cfg!(debug_assertions) { 0x28_0000 } else { 0xc_0000 };

/// An upper bound of the number of bytes that the program allocates before it reads a file.
const START: usize = 0x4_0000;

/// Makes the stack as large as it will ever be. Returns whether there is memory for that: if a file
/// took that memory, a stack that can't grow would abort the program.
fn has_stack() -> bool {
    let mut memory = Vec::<u8>::new();
    let is_there = memory.try_reserve_exact(STACK + START).is_ok();
    // keeps the compiler from removing the request
    drop(black_box(memory));
    if is_there {
        grow_stack();
    }
    is_there
}

#[inline(never)]
fn grow_stack() {
    black_box([0_u8; STACK]);
}

/// Returns the number of columns of the terminal: that of the environment, or the terminal's own.
fn columns() -> Option<usize> {
    let stated = env::var("COLUMNS").ok().and_then(|text| text.parse().ok());
    stated.or_else(|| {
        let mut command = Command::new("stty");
        let command = command.arg("size").stdin(File::open("/dev/tty").ok()?);
        let output = command.stderr(Stdio::null()).output().ok()?;
        let columns = str::from_utf8(&output.stdout).ok()?.split_whitespace().nth(1)?;
        columns.parse().ok().filter(|columns| *columns > 0)
    })
}

fn main() -> ExitCode {
    if !has_stack() {
        eprintln!("wenc-dump: memory ran out");
        return NO_MEMORY.into();
    }
    let out = io::stdout();
    let (no_color, term) = (env::var_os("NO_COLOR"), env::var_os("TERM"));
    let has_colours = colours_are_wanted(out.is_terminal(), no_color.as_deref(), term.as_deref());
    let columns = if out.is_terminal() { columns() } else { None };
    let terminal = Terminal { has_colours, columns };
    let mut streams = Streams {
        input: &mut io::stdin(),
        out: &mut BufWriter::new(out.lock()),
        err: &mut BufWriter::new(io::stderr()),
    };
    ExitCode::from(run(env::args_os(), terminal, &mut streams))
}
