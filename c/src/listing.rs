//! Components that were read, and items that are read from bytes.

use crate::arguments::{copied, known, list};
use crate::rows::{ItemRow, SectionRow};
use crate::session::Session;
use crate::{CallError, Handle, Result, Status, begin, calls, numbers, other, put, read};
use alloc::vec::Vec;
use core::ffi::c_char;
use core::fmt::{self, Write};
use core::ops::Range;
use wenc::tree::{IndexCounts, Space};
use wenc::view::ItemView;
use wenc::{
    Cause, ComponentSectionId, DebugNames, Error, Items, NamesReader, Part, ProducersReader,
    ReadError, Sections, Step, Walk,
};

/// A component that was read.
pub struct Listed {
    /// A copy of its bytes.
    bytes: Vec<u8>,
    sections: Vec<Section>,
    items: Vec<Item>,
    counts: IndexCounts,
}

/// A section of it.
struct Section {
    row: SectionRow,
    /// The number of items before the section.
    before: usize,
}

/// An item of it.
struct Item {
    place: usize,
    /// Its index, or that of its first value.
    index: u64,
}

impl Listed {
    /// Reads a component.
    fn read(bytes: &[u8]) -> Result<Self, ReadError> {
        let (sections, items, counts) = (Vec::new(), Vec::new(), IndexCounts::default());
        let mut listed = Self { bytes: Vec::new(), sections, items, counts };
        let mut walk = Walk::new(bytes, 1)?.counted()?;
        while let Some(step) = walk.next() {
            match step {
                Step::Section(section) => {
                    let (row, before) = (SectionRow::new(&section), listed.items.len());
                    push(&mut listed.sections, Section { row, before })?;
                }
                Step::Item(item) => listed.add(&item, walk.counts())?,
                Step::Enter(item) => {
                    listed.add(&item, walk.counts())?;
                    // it is listed as bytes
                    walk.go_to(usize::MAX);
                }
                Step::Unread(unread) if walk.depth() == 0 => return Err(unread.error),
                _ => {}
            }
        }
        listed.counts = *walk.counts();
        listed.bytes = copied(bytes).map_err(|_| Error::NoMemory)?;
        Ok(listed)
    }

    /// Adds an item of a component that defines this many indices before it.
    fn add(&mut self, item: &wenc::Item<'_>, counts: &IndexCounts) -> Result<(), ReadError> {
        let index = item.view.defined_indices().and_then(|(space, _)| counts.of(space));
        push(&mut self.items, Item { place: item.range.start, index: index.unwrap_or(0) })
    }

    /// Returns the number of sections.
    pub(crate) fn len(&self) -> usize {
        self.sections.len()
    }

    /// Returns the number of items in an index space.
    pub(crate) fn count(&self, space: Space) -> Result<u32> {
        let count = self.counts.of(space).and_then(|count| u32::try_from(count).ok());
        count.ok_or(CallError::from(Status::TooLarge).of(c"space"))
    }

    fn section(&self, number: usize) -> Result<&Section> {
        self.sections.get(number).ok_or(CallError::bad(c"section"))
    }

    /// Returns the index and the place of the item with this number in a section, and the item.
    fn item(&self, section: usize, number: usize) -> Result<(u64, Range<usize>, ItemView<'_>)> {
        let Section { row, before } = self.section(section)?;
        if number >= row.items {
            return Err(CallError::bad(c"number"));
        }
        // 32 bits: there is an item of this number.
        let Item { place, index } = self.items[*before + number];
        // 32 bits: the section ends where the component does, or before.
        let range = place..row.place + row.len;
        let items = Items::at(&self.bytes, row.id as u8, range, 1);
        let item = items.and_then(|mut items| items.next()).ok_or(Status::BadItem)??;
        Ok((index, item.range, item.view))
    }

    fn row(&self, section: usize, number: usize) -> Result<ItemRow> {
        let (index, range, item) = self.item(section, number)?;
        let row = ItemRow::new(self.section(section)?.row.id, range, item);
        Ok(ItemRow { index, ..row })
    }
}

fn push<T>(values: &mut Vec<T>, value: T) -> Result<(), ReadError> {
    values.try_reserve(1).map_err(|_| Error::NoMemory)?;
    values.push(value);
    Ok(())
}

/// `wenc_unread`: the part of a component that can't be read.
#[derive(Default)]
#[repr(C)]
pub struct UnreadPart {
    pub section: usize,
    pub place: usize,
    pub part: u32,
    pub item: u32,
    pub cause: usize,
    pub expected: [u8; 32],
}

#[unsafe(no_mangle)]
pub unsafe extern "C" fn wenc_list(
    handle: *mut Handle,
    bytes: *const u8,
    len: usize,
    unread: *mut UnreadPart,
) -> Status {
    unsafe { put(unread, UnreadPart::default()) };
    let make = || {
        let bytes = unsafe { list(bytes, len) }?;
        Listed::read(bytes).map(Session::Listed).map_err(|fault| {
            unsafe { put(unread, unread_part(fault)) };
            fault.into()
        })
    };
    unsafe { begin(handle, make) }.into()
}

/// Returns the part of a component that can't be read.
fn unread_part(error: ReadError) -> UnreadPart {
    let (section, offset) = (error.section, error.offset);
    let (part, item, place) = match error.part {
        Part::Count => (1, 0, offset),
        Part::Item(number) => (2, number, offset),
        Part::Rest => (3, 0, offset),
        _ => (0, 0, section),
    };
    let mut expected = [0; 32];
    if let Cause::Byte { expected: bytes, .. } = error.cause {
        bytes
            .ranges()
            .flatten()
            .for_each(|byte| expected[usize::from(byte / 8)] |= 1 << (byte % 8));
    }
    UnreadPart { section, place, part, item, cause: error.place(), expected }
}

/// Returns why the section at this byte offset of a component can't be read.
fn fault_at(bytes: &[u8], section: usize) -> Option<ReadError> {
    if section == 0 {
        return Sections::new(bytes).err();
    }
    match Sections::at(bytes, section)?.next()? {
        Ok(section) => section.items().find_map(Result::err),
        Err(fault) => Some(fault),
    }
}

/// A string of C with a capacity in bytes, which includes the final 0.
struct Written {
    text: *mut c_char,
    size: usize,
    /// The length of the string so far, with what exceeds the capacity.
    len: usize,
}

impl fmt::Write for Written {
    fn write_str(&mut self, text: &str) -> fmt::Result {
        for byte in text.bytes() {
            if self.len < self.size.saturating_sub(1) {
                unsafe { self.text.add(self.len).write(byte as c_char) };
            }
            self.len = self.len.saturating_add(1);
        }
        Ok(())
    }
}

/// Calls a function that writes a string, or nothing. Returns the length of the whole string.
unsafe fn write_text(
    text: *mut c_char,
    size: usize,
    write: impl FnOnce(&mut Written) -> Option<fmt::Result>,
) -> usize {
    let size = if text.is_null() { 0 } else { size };
    let mut written = Written { text, size, len: 0 };
    // No write fails.
    let _ = write(&mut written);
    if let Some(last) = size.checked_sub(1) {
        unsafe { text.add(written.len.min(last)).write(0) };
    }
    written.len
}

#[unsafe(no_mangle)]
pub unsafe extern "C" fn wenc_fault_text(
    bytes: *const u8,
    len: usize,
    section: usize,
    text: *mut c_char,
    size: usize,
) -> usize {
    let fault = || fault_at(unsafe { list(bytes, len) }.ok()?, section);
    unsafe { write_text(text, size, |to| Some(write!(to, "{}", fault()?))) }
}

/// Writes why bytes aren't one item of a section, or why what a custom section contains can't be
/// read.
fn write_item_fault(
    to: &mut Written,
    section: ComponentSectionId,
    bytes: &[u8],
) -> Option<fmt::Result> {
    let mut items = Items::at(bytes, section, 0..bytes.len(), 1)?;
    let (name, data) = match (items.next()?.map(|item| item.view), items.next()) {
        (Err(error), _) | (_, Some(Err(error))) => return Some(write!(to, "{error}")),
        (Ok(ItemView::Custom { name, data }), _) => (name, data),
        _ => return None,
    };
    let error = match name {
        DebugNames::SECTION => NamesReader::new(data).find_map(Result::err)?,
        ProducersReader::SECTION => ProducersReader::new(data).find_map(Result::err)?,
        _ => return None,
    };
    Some(write!(to, "{}", error.moved(bytes.len() - data.len())))
}

#[unsafe(no_mangle)]
pub unsafe extern "C" fn wenc_item_fault_text(
    section: u32,
    bytes: *const u8,
    len: usize,
    text: *mut c_char,
    size: usize,
) -> usize {
    let bytes = || unsafe { list(bytes, len) }.ok();
    unsafe {
        write_text(text, size, |to| write_item_fault(to, numbers::section(section)?, bytes()?))
    }
}

/// Returns the component that a handle has read.
fn listed(session: &Session) -> Result<&Listed> {
    match session {
        Session::Listed(listed) => Ok(listed),
        _ => Err(session.wrong_handle()),
    }
}

#[unsafe(no_mangle)]
pub unsafe extern "C" fn wenc_section_at(
    handle: *const Handle,
    number: usize,
    section: *mut SectionRow,
) -> Status {
    let row = |session| {
        let found = listed(session)?.section(number);
        found.map(|section| section.row).map_err(|error| error.of(c"number"))
    };
    unsafe { read(handle, section, row) }
}

#[unsafe(no_mangle)]
pub unsafe extern "C" fn wenc_item_at(
    handle: *const Handle,
    section: usize,
    number: usize,
    item: *mut ItemRow,
) -> Status {
    unsafe { read(handle, item, |session| listed(session)?.row(section, number)) }
}

calls! {
    wenc_copy(debug_name: name, listing: *const Handle, section: usize, number: usize) -> index
        = |session| {
        let of = |argument| move |error: CallError| error.of(argument);
        let listing = other(session, listing).and_then(listed).map_err(of(c"listing"))?;
        let (.., item) = listing.item(section, number)?;
        add(session, debug_name, &item)
    };
    wenc_item(section: u32, debug_name: name, bytes[len]: u8) -> index = |session| {
        let section = known(c"section", numbers::section(section))?;
        let error = |status| CallError::from(status).of(c"bytes");
        add(session, debug_name, &read_item(section, bytes).map_err(error)?)
    };
}

/// Adds an item, and returns its index, or 0 for a custom section, which has none.
fn add(session: &mut Session, debug_name: Option<&str>, item: &ItemView<'_>) -> Result<u32> {
    Ok(session.builder()?.try_item(debug_name, item)?.unwrap_or(0))
}

/// Reads an item of a section, which must take all bytes.
pub(crate) fn read_item(section: ComponentSectionId, bytes: &[u8]) -> Result<ItemView<'_>, Status> {
    let mut items = Items::at(bytes, section, 0..bytes.len(), 1).ok_or(Status::Malformed)?;
    match (items.next(), items.next()) {
        (Some(Ok(item)), None) => Ok(item.view),
        (Some(Err(error)), _) if Status::from(error) == Status::TooDeep => Err(Status::TooDeep),
        _ => Err(Status::Malformed),
    }
}
