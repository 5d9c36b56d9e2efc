//! The walk over a component: cursors in the caller's memory, which borrow the component's bytes.
//!
//! The offsets of a cursor are checked against the number of bytes before they are used: a cursor
//! that its owner has changed reads something else, or fails.

use crate::arguments::{Text, list};
use crate::rows::{ItemRow, SectionRow};
use crate::{Result, Status, numbers, put};
use core::ops::Range;
use wenc::{DebugNames, Items, NamesReader, Sections};

/// `wenc_walk`: what is left of a component, and of the section that is being read.
#[derive(Clone, Copy)]
#[repr(C)]
pub struct Walk {
    pub bytes: *const u8,
    pub len: usize,
    pub next_section: usize,
    pub next_item: usize,
    pub end: usize,
    pub items: u32,
    pub id: u32,
}

impl Walk {
    pub(crate) unsafe fn bytes<'a>(&self) -> Result<&'a [u8], Status> {
        unsafe { whole(self.bytes, self.len) }
    }

    /// Returns the sections that are left.
    unsafe fn sections<'a>(&self) -> Result<Sections<'a>> {
        let bytes = unsafe { self.bytes() }?;
        Ok(Sections::at(bytes, self.next_section).ok_or(Status::BadArgument)?)
    }

    /// Returns the items that are left of the section.
    unsafe fn items<'a>(&self) -> Result<Items<'a>> {
        let bytes = unsafe { self.bytes() }?;
        let id = u8::try_from(self.id).map_err(|_| Status::BadArgument)?;
        let items = Items::at(bytes, id, self.next_item..self.end, self.items);
        Ok(items.ok_or(Status::BadArgument)?)
    }

    /// Goes to these items, after which the next section begins.
    fn enter(&mut self, id: u8, items: Range<usize>, count: u32) {
        (self.next_section, self.next_item, self.end) = (items.end, items.start, items.end);
        (self.items, self.id) = (count, id.into());
    }
}

/// Returns the bytes that a cursor borrows, which are never NULL.
unsafe fn whole<'a>(at: *const u8, len: usize) -> Result<&'a [u8], Status> {
    if at.is_null() { Err(Status::BadArgument) } else { unsafe { list(at, len) } }
}

/// Moves a cursor, unless the call fails, and writes the result through a pointer from C.
unsafe fn moved<C: Copy, T>(
    cursor: *mut C,
    to: *mut T,
    call: impl FnOnce(&mut C) -> Result<T>,
) -> Status {
    let Some(cursor) = (unsafe { cursor.as_mut() }) else { return Status::BadArgument };
    let mut next = *cursor;
    let moved = call(&mut next).map(|value| {
        *cursor = next;
        unsafe { put(to, value) };
    });
    moved.into()
}

/// Writes a new cursor through a pointer from C, which mustn't be NULL.
unsafe fn begun<C>(cursor: *mut C, make: impl FnOnce() -> Result<C>) -> Status {
    if cursor.is_null() {
        return Status::BadArgument;
    }
    make().map(|made| unsafe { put(cursor, made) }).into()
}

#[unsafe(no_mangle)]
pub unsafe extern "C" fn wenc_walk_begin(walk: *mut Walk, bytes: *const u8, len: usize) -> Status {
    let make = || {
        let component = unsafe { list(bytes, len) }?;
        let next_section = Sections::new(component)?.offset().unwrap_or(len);
        Ok(Walk { bytes, len, next_section, next_item: 0, end: 0, items: 0, id: 0 })
    };
    unsafe { begun(walk, make) }
}

#[unsafe(no_mangle)]
pub unsafe extern "C" fn wenc_walk_section(walk: *mut Walk, section: *mut SectionRow) -> Status {
    let next = |walk: &mut Walk| {
        let section = unsafe { walk.sections() }?.next().ok_or(Status::End)??;
        let (range, count) = section.items().left().ok_or(Status::End)?;
        walk.enter(section.id(), range, count);
        Ok(SectionRow::new(&section))
    };
    unsafe { moved(walk, section, next) }
}

#[unsafe(no_mangle)]
pub unsafe extern "C" fn wenc_walk_skip(walk: *mut Walk, section: *mut SectionRow) -> Status {
    let next = |walk: &mut Walk| -> Result<SectionRow> {
        let mut sections = unsafe { walk.sections() }?;
        if walk.next_section == walk.len {
            return Err(Status::End.into());
        }
        let (range, section) = sections.next_raw().ok_or(Status::BadSection)?;
        walk.enter(section.id, range.end..range.end, 0);
        Ok(SectionRow::unread(range, section.data.len(), section.id))
    };
    unsafe { moved(walk, section, next) }
}

#[unsafe(no_mangle)]
pub unsafe extern "C" fn wenc_walk_item(walk: *mut Walk, item: *mut ItemRow) -> Status {
    let next = |walk: &mut Walk| {
        let mut items = unsafe { walk.items() }?;
        let item = items.next().ok_or(Status::End)??;
        (walk.next_item, walk.items) = (item.range.end, walk.items - 1);
        Ok(ItemRow::new(walk.id, item.range, item.view))
    };
    unsafe { moved(walk, item, next) }
}

/// `wenc_names_walk`: what is left of a section of debug names.
#[derive(Clone, Copy)]
#[repr(C)]
pub struct NamesWalk {
    pub bytes: *const u8,
    pub len: usize,
    pub next: usize,
    pub space: u32,
    pub names: u32,
}

/// `wenc_debug_name`: the name of an item, or of the component.
#[repr(C)]
pub struct DebugName {
    pub name: Text,
    pub space: u32,
    pub index: u32,
}

impl NamesWalk {
    /// Returns the next name, or fails with `End`.
    unsafe fn next(&mut self) -> Result<DebugName> {
        let data = unsafe { whole(self.bytes, self.len) }?;
        let within = match self.names {
            0 => None,
            names => Some((numbers::space(self.space).ok_or(Status::BadArgument)?, names)),
        };
        let mut names = NamesReader::at(data, self.next, within).ok_or(Status::BadArgument)?;
        let name = names.next().ok_or(Status::End)??;
        let (next, within) = names.left().ok_or(Status::End)?;
        self.next = next;
        self.names = within.map_or(0, |(_, names)| names);
        let (space, index) = name
            .item
            .map_or((numbers::NO_SPACE, 0), |(space, index)| (numbers::of_space(space), index));
        if name.item.is_some() {
            self.space = space;
        }
        Ok(DebugName { name: Text::new(name.name), space, index })
    }
}

#[unsafe(no_mangle)]
pub unsafe extern "C" fn wenc_walk_names(names: *mut NamesWalk, item: *const ItemRow) -> Status {
    let make = || {
        let item = unsafe { item.as_ref() }.ok_or(Status::BadArgument)?;
        let name = unsafe { list(item.name.name.at, item.name.name.len) }?;
        if item.section != 0 || name != DebugNames::SECTION.as_bytes() || item.bytes.is_null() {
            return Err(Status::BadArgument.into());
        }
        Ok(NamesWalk { bytes: item.bytes, len: item.bytes_len, next: 0, space: 0, names: 0 })
    };
    unsafe { begun(names, make) }
}

#[unsafe(no_mangle)]
pub unsafe extern "C" fn wenc_walk_name(names: *mut NamesWalk, name: *mut DebugName) -> Status {
    unsafe { moved(names, name, |names| names.next()) }
}
