//! NULL, unknown numbers and handles, as the header describes them.

use std::ffi::CStr;
use std::{mem, ptr, slice};
use wenc_calls::refuse::requested;
use wenc_capi::arguments::Text;
use wenc_capi::component_types::*;
use wenc_capi::core_types::*;
use wenc_capi::items::*;
use wenc_capi::last_error::wenc_last_error;
use wenc_capi::life::*;
use wenc_capi::listing::*;
use wenc_capi::rows::ItemRow;
use wenc_capi::sections::*;
use wenc_capi::{Handle, Status};

pub const EMPTY: *const u8 = ptr::null();
/// No debug name.
pub const NONE: *const Text = ptr::null();

pub fn named(name: &str) -> Text {
    Text { at: name.as_ptr(), len: name.len() }
}

/// What a call writes, or its status.
pub fn written<T>(call: impl FnOnce(*mut T) -> Status) -> Result<T, Status> {
    let mut value = unsafe { mem::zeroed() };
    done(call(&mut value)).map(|()| value)
}

pub fn done(status: Status) -> Result<(), Status> {
    if status == Status::Done { Ok(()) } else { Err(status) }
}

/// A handle, which is freed.
pub struct Held(Handle);

impl Held {
    pub fn nothing() -> Self {
        Self(Handle { at: ptr::null_mut() })
    }

    fn new(begin: impl FnOnce(*mut Handle) -> Status) -> Self {
        let mut held = Self::nothing();
        assert_eq!(begin(&mut held.0), Status::Done);
        held
    }

    pub fn builder() -> Self {
        Self::new(|handle| unsafe { wenc_new(handle) })
    }

    pub fn by_hand() -> Self {
        Self::new(|handle| unsafe { wenc_by_hand_new(handle) })
    }

    pub fn names() -> Self {
        Self::new(|handle| unsafe { wenc_names_new(handle) })
    }

    pub fn section(id: u32) -> Self {
        Self::new(|handle| unsafe { wenc_section_new(handle, id) })
    }

    pub fn types(kind: u32) -> Self {
        Self::new(|handle| unsafe { wenc_types_new(handle, kind) })
    }

    /// What these bytes are listed as.
    pub fn listing(bytes: &[u8]) -> Self {
        let (at, len) = (bytes.as_ptr(), bytes.len());
        Self::new(|handle| unsafe { wenc_list(handle, at, len, ptr::null_mut()) })
    }

    pub fn is_nothing(&self) -> bool {
        self.0.at.is_null()
    }

    pub fn at(&mut self) -> *mut Handle {
        &mut self.0
    }

    pub fn finished(mut self) -> Vec<u8> {
        let (mut at, mut len) = (ptr::null(), 0);
        assert_eq!(unsafe { wenc_finish(self.at(), &mut at, &mut len) }, Status::Done);
        unsafe { slice::from_raw_parts(at, len) }.into()
    }
}

impl Drop for Held {
    fn drop(&mut self) {
        unsafe { wenc_free(&mut self.0) };
    }
}

/// Imports a resource type under an empty name, and returns its index.
fn import(handle: *mut Handle) -> (Status, u32) {
    let mut index = 77;
    let status = unsafe { wenc_import(handle, EMPTY, 0, 7, 0, &mut index) };
    (status, index)
}

#[test]
fn statuses_have_texts() {
    let text = |status| unsafe { CStr::from_ptr(wenc_status_text(status)) };
    let texts: Vec<&CStr> = (0..15).map(text).collect();
    assert_eq!((texts[0], texts[7], texts[12]), (c"done", c"bad argument", c"bad item"));
    for (number, one) in texts.iter().enumerate() {
        assert!(!texts[..number].contains(one) && !one.is_empty());
    }
    assert_eq!((texts[13], text(u32::MAX)), (c"end", texts[14]));
    assert_eq!(wenc_version(), 100);
    let defined = format!("#define WENC_VERSION {}\n", wenc_version());
    assert!(include_str!("../../wenc.h").contains(&defined));
}

#[test]
fn null_is_empty_or_nothing() {
    let (mut builder, none) = (Held::builder(), ptr::null_mut());
    let at = builder.at();
    unsafe {
        assert_eq!(wenc_import(at, EMPTY, 0, 7, 0, ptr::null_mut()), Status::Done);
        assert_eq!(import(at), (Status::Done, 1));
        assert_eq!(wenc_type_tuple(at, NONE, ptr::null(), 0, none), Status::Done);
        assert_eq!(wenc_type_flags(at, &named(""), ptr::null(), 0, none), Status::Done);
        assert_eq!(wenc_core_module(at, NONE, EMPTY, 0, none), Status::Done);
        assert_eq!(wenc_start(at, 0, ptr::null(), 0, 0, none), Status::Done);
        assert_eq!(wenc_custom_section(at, EMPTY, 0, EMPTY, 0), Status::Done);
        assert_eq!(wenc_producers(at, ptr::null(), 0), Status::Done);
        assert_eq!(wenc_finish(at, ptr::null_mut(), ptr::null_mut()), Status::Done);
        wenc_free(ptr::null_mut());
    }
    let mut expected = wenc::ComponentBuilder::default();
    let resource = wenc::ComponentTypeRef::Type(wenc::TypeBounds::SubResource);
    expected.import("", resource);
    expected.import("", resource);
    expected.type_defined(None).1.tuple([] as [wenc::ComponentValType; 0]);
    expected.type_defined(Some("")).1.flags([]);
    expected.core_module_raw(None, &[]);
    expected.start(0, Vec::new(), 0);
    expected.custom_section(&wenc::CustomSection { name: "".into(), data: (&[][..]).into() });
    expected.producers_section(&wenc::ProducersSection::new());
    assert_eq!(builder.finished(), expected.finish());
}

#[test]
fn handles_that_have_nothing() {
    let (mut nothing, mut builder) = (Held::nothing(), Held::builder());
    for at in [ptr::null_mut(), nothing.at()] {
        assert_eq!(import(at), (Status::NoHandle, 77));
        unsafe {
            assert_eq!(wenc_append_names(at), Status::NoHandle);
            assert_eq!(wenc_finish(at, ptr::null_mut(), ptr::null_mut()), Status::NoHandle);
            assert_eq!(wenc_bytes(at, ptr::null_mut(), 0), Status::NoHandle);
            assert_eq!(wenc_len(at, ptr::null_mut()), Status::NoHandle);
            assert_eq!(wenc_last_error(at, ptr::null_mut()), Status::NoHandle);
            let to = builder.at();
            let nested = wenc_component(to, NONE, at, ptr::null_mut());
            assert_eq!(nested, Status::NoHandle);
            assert_eq!(wenc_type(to, NONE, at, ptr::null_mut()), Status::NoHandle);
        }
    }
    assert_eq!(unsafe { wenc_new(ptr::null_mut()) }, Status::NoHandle);
    assert_eq!(unsafe { wenc_new(builder.at()) }, Status::BadArgument);
}

#[test]
fn one_handle_is_not_two() {
    let (mut builder, mut types) = (Held::builder(), Held::types(4));
    let (mut copy, mut types_copy) = (Handle { at: builder.0.at }, Handle { at: types.0.at });
    let none = ptr::null_mut();
    unsafe {
        for nested in [builder.at(), &raw mut copy] {
            let at = builder.at();
            assert_eq!(wenc_component(at, NONE, nested, none), Status::BadArgument);
            assert_eq!(wenc_component_ref(at, NONE, nested, none), Status::BadArgument);
        }
        for twice in [types.at(), &raw mut types_copy] {
            assert_eq!(wenc_type(types.at(), NONE, twice, none), Status::BadArgument);
        }
    }
    assert_eq!(import(builder.at()), (Status::Done, 0));
}

#[test]
fn finished_components_take_no_more() {
    let (mut builder, mut nested) = (Held::builder(), Held::builder());
    let (mut len, mut again, none) = (0, 0, ptr::null_mut());
    unsafe {
        let at = builder.at();
        assert_eq!(wenc_bytes(at, ptr::null_mut(), 8), Status::Unfinished);
        assert_eq!(wenc_finish(at, ptr::null_mut(), &mut len), Status::Done);
        assert_eq!(wenc_finish(at, ptr::null_mut(), &mut again), Status::Done);
        assert_eq!((len, again), (8, 8));
        assert_eq!(import(at), (Status::Finished, 77));
        let mut bytes = [0; 9];
        assert_eq!(wenc_bytes(at, bytes.as_mut_ptr(), 9), Status::BadArgument);
        assert_eq!(bytes, [0; 9]);
        assert_eq!(wenc_bytes(at, ptr::null_mut(), 8), Status::BadArgument);
        assert_eq!(wenc_core_type_struct(at, &named(""), ptr::null(), 0, none), Status::Finished);
        let mut count = 77;
        assert_eq!((wenc_count(at, 0, &mut count), count), (Status::Finished, 77));
        let to = nested.at();
        assert_eq!(wenc_component(to, NONE, at, none), Status::Finished);
        assert_eq!(wenc_component_ref(at, NONE, to, none), Status::Finished);
    }
}

/// In quadratic time, by walking over the sections before each of them, this wouldn't end within
/// the time limit of the gate.
#[test]
fn items_of_many_sections_are_found() {
    const SECTIONS: usize = 160_000;
    let custom = *b"\0\x02\x01a\x06\x01\0\x01\x08\0asm\x01\0\0\0";
    let bytes = [&b"\0asm\x0d\0\x01\0"[..], &custom.repeat(SECTIONS)].concat();
    let mut listing = Held::listing(&bytes);
    let at = listing.at();
    let ((), requested) = requested(|| {
        for number in (0..20).flat_map(|_| 0..SECTIONS) {
            let mut module: ItemRow = unsafe { mem::zeroed() };
            let statuses = [
                unsafe { wenc_item_at(at, 3 * number, 0, ptr::null_mut()) },
                unsafe { wenc_item_at(at, 3 * number + 1, 0, ptr::null_mut()) },
                unsafe { wenc_item_at(at, 3 * number + 2, 0, &mut module) },
            ];
            assert_eq!(statuses, [Status::Done, Status::BadArgument, Status::Done]);
            assert_eq!((module.index, module.section), (number as u64, 1));
        }
    });
    assert_eq!(requested, 0);
}

/// Reads bytes: the status, and what isn't read, as the section, its place, part and item, which
/// are written whatever is wrong.
fn listed(handle: *mut Handle, bytes: *const u8, len: usize) -> (Status, [usize; 4]) {
    let mut unread =
        UnreadPart { section: 7, place: 7, part: 7, item: 7, cause: 7, expected: [7; 32] };
    let status = unsafe { wenc_list(handle, bytes, len, &mut unread) };
    (status, [unread.section, unread.place, unread.part as usize, unread.item as usize])
}

#[test]
fn what_is_not_read_is_put_out() {
    let component = *b"\0asm\x0d\0\x01\0\x07\x05\x01\x40\0\x01\0\x0a\x06\x01\0\x01f\x01\0";
    let read = |bytes: &[u8]| {
        let mut listing = Held::nothing();
        let found = listed(listing.at(), bytes.as_ptr(), bytes.len());
        assert_eq!(listing.is_nothing(), found.0 != Status::Done);
        found
    };
    let changed = |at: usize, byte| {
        let mut bytes = component;
        bytes[at] = byte;
        read(&bytes)
    };
    assert_eq!(read(&component), (Status::Done, [0; 4]));
    assert_eq!(read(&[]), (Status::NotAComponent, [0; 4]));
    assert_eq!(changed(8, 12), (Status::BadSection, [8, 8, 0, 0]));
    // Two imports, the second of which is missing; no count; a byte after the type.
    assert_eq!(changed(17, 2), (Status::BadItem, [15, 23, 2, 1]));
    assert_eq!(read(&component[..8 + 2 + 1]).0, Status::BadSection);
    assert_eq!(read(b"\0asm\x0d\0\x01\0\x07\x00"), (Status::BadItem, [8, 10, 1, 0]));
    assert_eq!(changed(10, 0), (Status::BadItem, [8, 11, 3, 0]));
    let (mut taken, mut nothing, at) = (Held::builder(), Held::nothing(), component.as_ptr());
    assert_eq!(listed(ptr::null_mut(), at, 8), (Status::NoHandle, [0; 4]));
    assert_eq!(listed(taken.at(), at, 8), (Status::BadArgument, [0; 4]));
    assert_eq!(listed(nothing.at(), EMPTY, 8), (Status::BadArgument, [0; 4]));
}

/// The sentence on why the section at this offset can't be read, written to a buffer of this size.
fn fault_text(bytes: &[u8], section: usize, size: usize) -> (usize, Vec<u8>) {
    let mut text = [1; 120];
    let at = text.as_mut_ptr().cast();
    let len = unsafe { wenc_fault_text(bytes.as_ptr(), bytes.len(), section, at, size) };
    assert!(text[size..].iter().all(|letter| *letter == 1_u8));
    (len, text[..size].to_vec())
}

#[test]
fn faults_are_written() {
    // an import of an unknown kind
    let bytes = b"\0asm\x0d\0\x01\0\x06\x01\0\x0a\x06\x01\0\x01f\x09\x01";
    let (mut unread, mut listing) = (UnreadPart::default(), Held::nothing());
    let status = unsafe { wenc_list(listing.at(), bytes.as_ptr(), bytes.len(), &mut unread) };
    assert_eq!((status, unread.section, unread.place), (Status::BadItem, 11, 14));
    let mut expected = [0; 32];
    expected[0] = 0x3f;
    assert_eq!((unread.cause, unread.expected), (17, expected));
    let expected = b"bad item 0 at 0xe in the section at 0xb: 0x09 at 0x11, where 0x00 to 0x05 is \
        expected";
    for size in [0, 1, 2, expected.len(), expected.len() + 1, 120] {
        let (len, text) = fault_text(bytes, 11, size);
        let front = expected.len().min(size.saturating_sub(1));
        assert_eq!(len, expected.len());
        assert_eq!(&text[..front], &expected[..front]);
        assert!(size == 0 || text[front] == 0);
    }
    let at = ptr::null_mut();
    let len = unsafe { wenc_fault_text(bytes.as_ptr(), bytes.len(), 11, at, 9) };
    assert_eq!(len, expected.len());
    // what is read, and no bytes
    for (bytes, section) in [(&bytes[..], 0), (bytes, 8), (bytes, 19), (bytes, 99)] {
        assert_eq!(fault_text(bytes, section, 1), (0, vec![0]));
    }
    assert_eq!(unsafe { wenc_fault_text(EMPTY, 8, 0, at, 0) }, 0);
    let header = b"no component's header at 0x0: found nothing";
    assert_eq!(fault_text(b"", 0, 44), (43, [&header[..], b"\0"].concat()));
    let text = b"bad section at 0x8: needs 5 bytes or more from 0xa on, where 1 is left\0";
    let (len, written) = fault_text(b"\0asm\x0d\0\x01\0\x06\x05\x01", 8, text.len());
    assert_eq!((len, &written[..]), (text.len() - 1, &text[..]));
}
