//! Reading components and core modules, and writing what was read.

mod commands;
mod core_sections;
mod cursor;
mod damaged;
mod debug_names;
mod definitions;
mod faults;
mod groups;
mod indices;
mod instances;
mod listing;
mod nested;
mod nodes;
mod out_of_range;
mod outer;
mod places;
mod producers;
mod real;
mod rewrite;
mod scopes;
mod views;

use indices::expect;
use wenc::tree::NameTree;
use wenc_calls::call::{Seen, here};
use wenc_calls::format::{component, section};
use wenc_calls::hex::bytes;
use wenc_calls::{corpus, sections, seen, spellings};

/// A component section with a component with these sections.
fn nested(sections: &[u8]) -> Vec<u8> {
    section(4, &component(sections))
}

fn text(text: &str) -> String {
    text.into()
}

fn name(text: &str) -> NameTree {
    text.into()
}
