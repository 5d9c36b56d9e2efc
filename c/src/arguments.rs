//! Arguments from C: strings, arrays, and the structures of the header.

use crate::{CallError, Result, Status, numbers};
use alloc::borrow::Cow;
use alloc::vec::Vec;
use core::ffi::CStr;
use core::ptr::{self, NonNull};
use core::{slice, str};
use wenc::{ComponentExternName, EntityType};

/// A `bool` of C: true unless it is 0.
#[derive(Clone, Copy)]
#[repr(transparent)]
pub struct Flag(pub u8);

impl Flag {
    pub fn is_set(self) -> bool {
        self.0 != 0
    }
}

/// `wenc_part`: a member of a list of names.
#[derive(Clone, Copy)]
#[repr(C)]
pub struct Part {
    pub name: *const u8,
    pub name_len: usize,
    pub kind: u32,
    pub number: u32,
}

/// `wenc_pair`: a member of a list without names.
#[derive(Clone, Copy)]
#[repr(C)]
pub struct Pair {
    pub kind: u32,
    pub number: u32,
}

/// `wenc_text`: a string, or none if the pointer is NULL where that is allowed.
#[derive(Clone, Copy)]
#[repr(C)]
pub struct Text {
    pub at: *const u8,
    pub len: usize,
}

/// `wenc_name`: a name with its options.
#[derive(Clone, Copy)]
#[repr(C)]
pub struct Name {
    pub name: Text,
    pub implements: Text,
    pub version_suffix: Text,
    pub external_id: Text,
}

/// `wenc_entity`: an import or an export of a core module.
#[derive(Clone, Copy)]
#[repr(C)]
pub struct Entity {
    pub minimum: u64,
    pub maximum: u64,
    pub kind: u32,
    pub ty: u32,
    pub index: u32,
    pub has_maximum: Flag,
    pub is_long: Flag,
    pub is_shared: Flag,
}

/// `wenc_subtype`: a core type as a subtype.
#[derive(Clone, Copy)]
#[repr(C)]
pub struct Subtype {
    pub fields: *const Pair,
    pub fields_len: usize,
    pub results: *const Pair,
    pub results_len: usize,
    pub kind: u32,
    pub supertype: u32,
    pub has_supertype: Flag,
    pub is_final: Flag,
}

/// `wenc_producer`: a tool, its version and its field.
#[repr(C)]
pub struct Producer {
    pub field: *const u8,
    pub field_len: usize,
    pub tool: *const u8,
    pub tool_len: usize,
    pub version: *const u8,
    pub version_len: usize,
}

/// `wenc_index_name`: the name of an item.
#[repr(C)]
pub struct IndexName {
    pub name: *const u8,
    pub name_len: usize,
    pub index: u32,
}

/// Returns an array. The pointer of an empty one isn't used.
///
/// # Errors
///
/// Fails if the pointer is NULL, or the array would be too long.
pub(crate) unsafe fn list<'a, T>(at: *const T, len: usize) -> Result<&'a [T], Status> {
    if len == 0 {
        Ok(&[])
    } else if is_possible(at, len) {
        Ok(unsafe { slice::from_raw_parts(at, len) })
    } else {
        Err(Status::BadArgument)
    }
}

fn is_possible<T>(at: *const T, len: usize) -> bool {
    !at.is_null() && len <= isize::MAX as usize / size_of::<T>()
}

/// Returns an array as [`list`] does, whose length is encoded as a number of 32 bits.
///
/// # Errors
///
/// Fails also with `TooLarge` for more bytes than such a number counts, `TooMany` for more values.
pub(crate) unsafe fn counted<'a, T>(
    argument: &'static CStr,
    at: *const T,
    len: usize,
) -> Result<&'a [T]> {
    unsafe { counted_list(at, len) }.map_err(|status| CallError::from(status).of(argument))
}

unsafe fn counted_list<'a, T>(at: *const T, len: usize) -> Result<&'a [T], Status> {
    if u32::try_from(len).is_err() && is_possible(at, len) {
        return Err(if size_of::<T>() == 1 { Status::TooLarge } else { Status::TooMany });
    }
    unsafe { list(at, len) }
}

/// Returns a UTF-8 string.
pub(crate) unsafe fn text<'a>(
    argument: &'static CStr,
    at: *const u8,
    len: usize,
) -> Result<&'a str> {
    unsafe { utf8(at, len) }.map_err(|status| CallError::from(status).of(argument))
}

/// Returns a UTF-8 string. Most are ASCII, which is faster to check.
unsafe fn utf8<'a>(at: *const u8, len: usize) -> Result<&'a str, Status> {
    let bytes = unsafe { counted_list(at, len) }?;
    if bytes.is_ascii() {
        return Ok(unsafe { str::from_utf8_unchecked(bytes) });
    }
    str::from_utf8(bytes).map_err(|_| Status::Malformed)
}

/// Returns a debug name, or none.
pub(crate) unsafe fn debug_name<'a>(name: *const Text) -> Result<Option<&'a str>> {
    let name = unsafe { name.as_ref() };
    let name = name.map_or(Ok(None), |name| unsafe { name.optional() });
    name.map_err(|status| CallError::from(status).of(c"debug_name"))
}

impl Text {
    pub const NONE: Self = Self { at: ptr::null(), len: 0 };

    /// Returns the string, unless there is none.
    unsafe fn optional<'a>(&self) -> Result<Option<&'a str>, Status> {
        match (self.at.is_null(), self.len) {
            (true, 0) => Ok(None),
            (_, len) => unsafe { utf8(self.at, len) }.map(Some),
        }
    }
}

impl Name {
    /// Returns the name with its options.
    pub(crate) unsafe fn read<'a>(&self) -> Result<ComponentExternName<'a>> {
        let wrong = |status: Status| CallError::from(status).of(c"name");
        let option = |option: Text| -> Result<Option<Cow<'a, str>>> {
            Ok(unsafe { option.optional() }.map_err(wrong)?.map(Into::into))
        };
        Ok(ComponentExternName {
            name: unsafe { utf8(self.name.at, self.name.len) }.map_err(wrong)?.into(),
            implements: option(self.implements)?,
            version_suffix: option(self.version_suffix)?,
            external_id: option(self.external_id)?,
        })
    }
}

impl Entity {
    /// Returns the type of the import or the export.
    pub(crate) fn read(&self) -> Result<EntityType> {
        Ok(known(c"entity", numbers::entity(self))?.into())
    }
}

/// Returns the value of a number, or fails with this argument if it has none.
pub(crate) fn known<T>(argument: &'static CStr, value: Option<T>) -> Result<T> {
    value.ok_or(CallError::bad(argument))
}

/// Returns an iterator over values with their names, which are all checked first.
///
/// # Errors
///
/// Fails if a name isn't UTF-8, or if `of` returns `None`.
pub(crate) unsafe fn named<'a, T>(
    argument: &'static CStr,
    parts: &'a [Part],
    of: impl Fn(u32, u32) -> Option<T> + 'a,
) -> Result<impl ExactSizeIterator<Item = (&'a str, T)>> {
    for (member, part) in parts.iter().enumerate() {
        let wrong = |status: Status| CallError::from(status).of(argument).at(member);
        unsafe { utf8(part.name, part.name_len) }.map_err(wrong)?;
        of(part.kind, part.number).ok_or(Status::BadArgument).map_err(wrong)?;
    }
    Ok(parts.iter().map(move |part| {
        let at = if part.name_len == 0 { NonNull::dangling().as_ptr() } else { part.name };
        let name = unsafe { slice::from_raw_parts(at, part.name_len) };
        let name = unsafe { str::from_utf8_unchecked(name) };
        (name, of(part.kind, part.number).expect("it is known"))
    }))
}

/// Returns an iterator over the names, the kinds and the indices of items, as [`named`] does.
pub(crate) unsafe fn items<'a, K>(
    argument: &'static CStr,
    parts: &'a [Part],
    of: impl Fn(u32) -> Option<K> + 'a,
) -> Result<impl ExactSizeIterator<Item = (&'a str, K, u32)>> {
    let items = unsafe { named(argument, parts, move |kind, item| Some((of(kind)?, item))) }?;
    Ok(items.map(|(name, (kind, item))| (name, kind, item)))
}

/// Returns an iterator over values without names, as [`named`] does.
pub(crate) fn unnamed<'a, T>(
    argument: &'static CStr,
    pairs: &'a [Pair],
    of: impl Fn(u32, u32) -> Option<T> + 'a,
) -> Result<impl ExactSizeIterator<Item = T>> {
    if let Some(member) = pairs.iter().position(|pair| of(pair.kind, pair.number).is_none()) {
        return Err(CallError::bad(argument).at(member));
    }
    Ok(pairs.iter().map(move |pair| of(pair.kind, pair.number).expect("it is known")))
}

/// Returns an iterator over names alone, as [`named`] does. The numbers with them aren't used.
pub(crate) unsafe fn names<'a>(
    argument: &'static CStr,
    parts: &'a [Part],
) -> Result<impl ExactSizeIterator<Item = &'a str>> {
    Ok(unsafe { named(argument, parts, |_, _| Some(())) }?.map(|(name, ())| name))
}

/// Collects values, and fails if the allocation fails.
pub(crate) fn collected<T>(values: impl ExactSizeIterator<Item = T>) -> Result<Vec<T>> {
    let mut all = Vec::new();
    all.try_reserve_exact(values.len())?;
    all.extend(values);
    Ok(all)
}

/// Returns a copy of the values.
pub(crate) fn copied<T: Copy>(values: &[T]) -> Result<Vec<T>> {
    collected(values.iter().copied())
}
