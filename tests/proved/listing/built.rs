//! What `build` makes of the commands of scripts, as it is printed.

use crate::proved::tests::hex;
use crate::proved::wenc_list::{Listing, list};
use crate::shim::alloc::Global;
use std::str::from_utf8;
use std::vec::Vec;

/// The items define, one after the other, the indices in these results, and no others: each the
/// next in its space. A custom section defines none.
fn are_answered(listing: &Listing, answers: &[u128]) {
    let mut counts = [0u128; 13];
    let mut rest = answers;
    for section in &listing.sections {
        for item in &section.items {
            if let Some((space, number)) = item.indices() {
                let [index, behind @ ..] = rest else { panic!("an item has no answer") };
                let count = &mut counts[space.number()];
                assert_eq!(*count, *index);
                *count = index + u128::from(number);
                rest = behind;
            }
        }
    }
    assert!(rest.is_empty() && listing.counts == counts);
}

/// The component that is printed here is listed with the items and the counts of the commands that
/// succeeded, whose results are printed before it. The result of a command that failed isn't a
/// number, nor is that of one for names.
pub fn is_listed(printed: &[u8]) {
    let text = from_utf8(printed).unwrap().trim_end();
    let (lines, component) = text.rsplit_once('\n').unwrap_or(("", text));
    let answers: Vec<u128> = lines.split('\n').filter_map(|line| line.parse().ok()).collect();
    are_answered(&list(Global, &hex::bytes(component)).unwrap(), &answers);
}
