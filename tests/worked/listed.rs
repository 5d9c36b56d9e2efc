//! Listings.

use super::is_listed;
use super::runs::{LISTED, SCRIPTS, UNLISTED, hex};
use wenc::tree::{IndexCounts, Space};
use wenc::*;

/// What the program prints.
fn printed(bytes: &[u8]) -> String {
    let listing = match list(bytes) {
        Ok(listing) => listing,
        Err(error) => {
            let case = match (error.part, error.cause) {
                (Part::Header, _) => "NotAComponent",
                (Part::Section, _) => "BadSection",
                (_, Cause::Deep { .. }) => "TooDeep",
                _ => "BadItem",
            };
            return format!("{case} at {}\n", error.section);
        }
    };
    let line = |section: &ListedSection| format!("{} {}\n", section.id, section.items.len());
    let lines: String = listing.sections.iter().map(line).collect();
    let mut counts = IndexCounts::default();
    let items = listing.sections.iter().flat_map(|section| &section.items);
    items.for_each(|item| counts.define(item.defined_indices()));
    let counts = Space::ALL.map(|space| counts.of(space).expect("all is read").to_string());
    format!("{lines}{}\n", counts.join(" "))
}

#[test]
fn components() {
    for (bytes, wanted) in LISTED {
        assert_eq!(printed(&[&Component::HEADER[..], &hex(bytes)].concat()), wanted);
    }
    for (bytes, wanted) in UNLISTED {
        assert_eq!(printed(&hex(bytes)), wanted);
    }
}

/// What scripts build.
#[test]
fn scripts() {
    for (_, _, _, bytes) in SCRIPTS {
        is_listed(&[&Component::HEADER[..], &hex(bytes)].concat());
    }
}
