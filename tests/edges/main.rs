//! What callers may do besides the calls of `calls`, and allocations that fail: values that panic,
//! sections and core types of the caller's own, calls out of turn, iterators that report a wrong
//! length.

mod builders;
mod claimed;
mod converted;
mod panics;
mod refused;
mod strangers;
mod traits;
mod turns;
mod unsupported;

use wenc_calls::{corpus, hex, panics, refuse, spellings};
