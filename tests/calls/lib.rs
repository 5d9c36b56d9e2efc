//! Each call that adds an item, by a table: the bytes that it has to write are stated once, from
//! the format's standard, and compared in all ways to make the call and in all places (`sweeps`).
//! The tests of the calls for C make them by the same table. What several tests need is here too,
//! so that it is compiled once.
#![allow(unsafe_code, reason = "a global allocator is unsafe")]
#![allow(missing_docs, reason = "it is for tests")]
#![allow(clippy::type_complexity)]

pub mod by_items;
pub mod call;
#[path = "../real/corpus.rs"]
pub mod corpus;
#[path = "../common/counts.rs"]
pub mod counts;
pub mod encoded;
pub mod format;
#[path = "../common/hex.rs"]
pub mod hex;
#[path = "../../programs/wenc-dump/tests/dump/json_value.rs"]
pub mod json_value;
#[path = "../common/random.rs"]
pub mod random;
#[path = "../common/refuse.rs"]
pub mod refuse;
#[path = "../common/sections.rs"]
pub mod sections;
#[path = "../common/seen.rs"]
pub mod seen;
#[path = "../common/side_by_side.rs"]
pub mod side_by_side;
pub mod size;
#[path = "../common/spellings.rs"]
pub mod spellings;
pub mod table;
#[path = "../common/visited.rs"]
pub mod visited;

/// Whether the call panics.
pub fn panics<T>(call: impl FnOnce() -> T) -> bool {
    use std::panic::{AssertUnwindSafe, catch_unwind};
    catch_unwind(AssertUnwindSafe(|| drop(call()))).is_err()
}
