//! Sections with wrong sizes.

use std::ops::Range;
use std::{io, iter};
use wenc::view::ItemView;
use wenc::{Cause, ComponentSectionId, CoreSections, Part, SectionReader, Sections};

/// The maximum number of bytes by which a size is taken to be wrong.
const MOST: usize = 4;

/// The maximum number of sizes that are tried, each by reading two sections.
const TRIES: usize = 16;

/// A section with a wrong size: with another one, the sections after it reach the end.
#[derive(Clone, Copy, Debug, PartialEq, Eq)]
pub struct WrongSize {
    /// The byte offset of its id.
    pub place: usize,
    /// The byte offset of its end by its size.
    pub stated: usize,
    /// The byte offset of its likely end.
    pub end: usize,
}

/// Returns the byte offsets of the content of the section at this byte offset, if it has a known
/// id and a size within the bytes.
fn content(bytes: &[u8], place: usize) -> Option<Range<usize>> {
    let (range, section) = Sections::at(bytes, place)?.next_raw()?;
    ComponentSectionId::try_from(section.id).ok()?;
    Some(range.end - section.data.len()..range.end)
}

/// Returns the section at this byte offset, if all of its items can be read; of modules and
/// components, only the header is read.
fn whole(bytes: &[u8], place: usize) -> Option<SectionReader<'_>> {
    let section = Sections::at(bytes, place)?.next()?.ok()?;
    let is_read = section.items().all(|item| match item.map(|item| item.view) {
        Ok(ItemView::Module(bytes)) => CoreSections::new(bytes).is_ok(),
        Ok(ItemView::Component(bytes)) => Sections::new(bytes).is_ok(),
        item => item.is_ok(),
    });
    is_read.then_some(section)
}

/// Returns whether the items of the section at this byte offset fill its content. This isn't known
/// of sections whose item is the rest of their bytes.
fn is_filled(bytes: &[u8], place: usize) -> bool {
    let takes_all = [
        ComponentSectionId::CoreCustom,
        ComponentSectionId::CoreModule,
        ComponentSectionId::Component,
    ];
    whole(bytes, place).is_some_and(|section| !takes_all.map(u8::from).contains(&section.id()))
}

/// Returns whether the section at this byte offset has too few bytes.
fn is_cut(bytes: &[u8], place: usize) -> bool {
    let next = Sections::at(bytes, place).and_then(|mut sections| sections.next());
    let Some(Err(error)) = next else { return false };
    error.part == Part::Section && matches!(error.cause, Cause::Few { .. })
}

/// Returns, for each byte offset from this one on, whether the sections from there reach the end.
fn reaching(bytes: &[u8], from: usize) -> io::Result<Vec<bool>> {
    let mut reaching = Vec::new();
    reaching.try_reserve_exact(bytes.len() - from + 1)?;
    reaching.resize(bytes.len() - from, false);
    reaching.push(true);
    for place in (from..bytes.len()).rev() {
        let end = content(bytes, place).map(|content| content.end);
        reaching[place - from] = end.is_some_and(|end| reaching[end - from]);
    }
    Ok(reaching)
}

/// Returns the first section from this byte offset on that may have another size: its items don't
/// fill it, and with the other size the next section can be read and the last one ends with the
/// bytes. Returns `None` if there is no such section, or if the last one ends there as it is.
///
/// # Errors
///
/// Fails if an allocation fails, of up to a byte for each byte from there on.
pub fn wrong_size(bytes: &[u8], from: usize) -> io::Result<Option<WrongSize>> {
    let next = |place: &usize| content(bytes, *place).map(|content| content.end);
    let last = iter::successors(Some(from), next).last().unwrap_or(from);
    if last == bytes.len() {
        return Ok(None);
    }
    let (is_cut, reaching) = (is_cut(bytes, last), reaching(bytes, from)?);
    let near = |place: usize| {
        let sizes = content(bytes, place).into_iter().flat_map(|content| {
            let Range { start, end: stated } = content;
            let ends = (1..=MOST).flat_map(move |by| [Some(stated + by), stated.checked_sub(by)]);
            let ends = ends.flatten().filter(move |end| (start..=bytes.len()).contains(end));
            ends.map(move |end| (stated, end))
        });
        sizes.map(move |(stated, end)| WrongSize { place, stated, end })
    };
    let is_likely = |wrong_size: &WrongSize| {
        let goes_on = if wrong_size.end == bytes.len() {
            !is_cut
        } else {
            whole(bytes, wrong_size.end).is_some()
        };
        goes_on && !is_filled(bytes, wrong_size.place)
    };
    let all = iter::successors(Some(from), next).flat_map(near);
    let mut reaching = all.filter(|wrong_size| reaching[wrong_size.end - from]).take(TRIES);
    Ok(reaching.find(is_likely))
}
