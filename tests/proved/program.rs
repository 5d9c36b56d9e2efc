//! The program: scripts, listings, streams that fail, and runs that run out of memory.

mod lines;
mod listings;
mod memory;
mod outcome;
mod pieces;
mod scripts;
mod streams;
mod transfers;
mod vectors;
#[path = "../worked/runs.rs"]
mod worked;
