//! The program `wenc-dump`, which prints what components and core modules contain. All bytes are
//! read by proved calls.
#![forbid(unsafe_code)]

mod arguments;
mod at;
mod buffer;
mod check;
mod colours;
mod custom;
mod escape;
mod fault;
mod fold;
mod html;
mod json;
mod leaf;
mod modules;
mod phrase;
mod report;
mod run;
mod select;
mod sizes;
mod text;
mod walk;
mod wit;
mod words;

pub use colours::are_wanted as colours_are_wanted;
pub use fault::NO_MEMORY;
pub use run::{Streams, Terminal, run};
