//! Worked components that are cut, or have a byte changed: reading them returns, and no two that
//! differ in one byte are read as the same, except for the first byte of a name.

use super::sections::{EACH_KIND, ROWS, Row};
use super::{component, read};
use crate::proved::tests::hex::bytes;
use crate::{Listing, Part};
use std::collections::HashMap;
use std::format;

/// How many changed bytes are read as other items, as the same ones, and not at all.
type Answers = [u32; 3];

/// A prefix of a component is read if it ends where a section does, and otherwise fails at the
/// section that is cut, which begins at this byte offset.
fn is_cut(front: &[u8], begin: usize) {
    let place = match read(front) {
        Ok(_) => front.len(),
        Err(error) if error.part == Part::Header => {
            assert!(error.offset == 0 && front.len() < 8);
            return;
        }
        Err(error) => {
            assert!(error.part == Part::Section && error.offset < front.len());
            error.offset
        }
    };
    assert_eq!(place, begin);
}

/// The byte at this place of a section that begins there is made others: each where `all` says so,
/// else those with one bit turned, those beside it, and the ends.
fn change(bytes: &[u8], at: usize, begin: usize, all: bool, answers: &mut Answers) {
    let (mut changed, old) = (bytes.to_vec(), bytes[at]);
    let shown = |listing: Listing| format!("{listing:?}");
    let mut seen = HashMap::from([(shown(read(bytes).expect("it is read")), old)]);
    for value in (0..=255u8).filter(|value| *value != old) {
        let is_near = (old ^ value).is_power_of_two() || old.abs_diff(value) == 1;
        if !all && !is_near && !matches!(value, 0 | 255) {
            continue;
        }
        changed[at] = value;
        match read(&changed).map(|listing| seen.insert(shown(listing), value)) {
            Ok(None) => answers[0] += 1,
            // a name after `01` in place of `00`
            Ok(Some(other)) => {
                assert_eq!((value | other, begin > 0), (1, true), "{changed:x?}");
                answers[1] += 1;
            }
            Err(fault) => {
                assert!(fault.section >= begin, "{changed:x?}");
                answers[2] += 1;
            }
        }
    }
}

/// The component is cut at each place, and each byte is changed.
fn change_each(row: &Row<'_>, all: bool) -> Answers {
    let bytes = component(&bytes(row.sections));
    let mut answers = Answers::default();
    for at in 0..bytes.len() {
        let begins = row.listed.iter().map(|(_, place, _)| *place);
        let begin = begins.filter(|place| *place <= at).max().unwrap_or(0);
        is_cut(&bytes[..at], begin);
        change(&bytes, at, begin, all, &mut answers);
    }
    answers
}

#[test]
fn each_byte() {
    let answers = ROWS.iter().map(|row| change_each(row, false));
    let all = answers.fold([0; 3], |all, of| [0, 1, 2].map(|at| all[at] + of[at]));
    assert_eq!(all, [5547, 29, 12_642]);
}

#[test]
fn each_byte_made_each_other() {
    assert_eq!(change_each(&EACH_KIND, true), [11_283, 4, 28_238]);
}
