//! Why a call failed: `wenc_last_error` after each call of the header that can fail.

use super::edges::{EMPTY, Held, NONE, written};
use std::collections::BTreeSet;
use std::ffi::CStr;
use std::ptr;
use std::sync::LazyLock;
use wenc_capi::arguments::{Entity, Flag, IndexName, Name, Pair, Part, Producer, Subtype, Text};
use wenc_capi::component_types::*;
use wenc_capi::core_types::*;
use wenc_capi::items::*;
use wenc_capi::last_error::{ErrorRow, wenc_last_error};
use wenc_capi::life::*;
use wenc_capi::listing::*;
use wenc_capi::sections::*;
use wenc_capi::{Handle, Status};

const HEADER: &str = include_str!("../../wenc.h");

/// The calls of the header that return a status, each with the type of its first parameter.
fn calls() -> Vec<(&'static str, &'static str)> {
    let prototypes = HEADER.split("WENC_CHECKED enum wenc_status ").skip(1);
    let of = |prototype: &'static str| {
        let (name, parameters) = prototype.split_once('(').expect("a list of parameters");
        let (ty, _) = parameters.split_once('*').expect("a pointer");
        (name, ty.trim())
    };
    prototypes.map(of).collect()
}

/// Why the last call failed: the status, the argument, and the number of its member.
pub fn last_error(handle: *const Handle) -> (u32, Option<&'static CStr>, usize) {
    let error: ErrorRow = written(|to| unsafe { wenc_last_error(handle, to) }).expect("one");
    let is_named = !error.argument.is_null();
    let argument = is_named.then(|| unsafe { CStr::from_ptr(error.argument) });
    (error.status, argument, error.member)
}

/// A call that fails, and what is wrong.
struct Row {
    name: &'static str,
    begin: fn() -> Held,
    call: fn(*mut Handle) -> Status,
    error: (u32, Option<&'static CStr>, usize),
}

impl Row {
    fn call_name(&self) -> &'static str {
        self.name.split('(').next().expect("a name")
    }
}

/// The handle, and for each call of it the expected status and the argument with the number of its
/// member.
macro_rules! rows {
    ($at:ident: $($begin:path {
        $($status:literal $argument:literal [$member:literal] $call:ident($($arg:expr),*);)*
    })*) => {&[$($(Row {
        name: concat!(stringify!($call), stringify!(($($arg),*))),
        begin: $begin,
        call: |$at| unsafe { $call($($arg),*) },
        error: ($status, Some($argument), $member),
    }),*),*]};
}

fn module() -> Held {
    Held::types(0)
}

fn component_type() -> Held {
    Held::types(4)
}

fn finished() -> Held {
    let mut builder = Held::builder();
    let status = unsafe { wenc_finish(builder.at(), ptr::null_mut(), ptr::null_mut()) };
    assert_eq!(status, Status::Done);
    builder
}

/// A section with a type.
fn listing() -> Held {
    Held::listing(b"\0asm\x0d\0\x01\0\x07\x02\x01\x79")
}

const NO: Flag = Flag(0);
const NULL: *const u8 = EMPTY;
/// No index is asked for.
const OUT: *mut u32 = ptr::null_mut();
const A: *const u8 = b"a".as_ptr();
const MEMORY: &Text = &Text { at: A, len: 1 };
/// No UTF-8.
const BAD: *const u8 = b"\xff".as_ptr();
const BAD_TEXT: Text = Text { at: BAD, len: 1 };
/// This many pairs would exceed the address space.
const MOST: usize = usize::MAX / size_of::<Pair>();

const fn part(name: *const u8, name_len: usize, kind: u32) -> Part {
    Part { name, name_len, kind, number: 1 }
}

const fn pair(kind: u32) -> Pair {
    Pair { kind, number: 1 }
}

const fn index_name(name: *const u8) -> IndexName {
    IndexName { name, name_len: 1, index: 0 }
}

/// A tool with this version.
const fn tool(version: &[u8]) -> Producer {
    let (version, version_len) = (version.as_ptr(), version.len());
    Producer { field: A, field_len: 1, tool: A, tool_len: 1, version, version_len }
}

/// A type by its kind and its fields.
const fn subtype(kind: u32, fields: &[Pair]) -> Subtype {
    Subtype {
        fields: fields.as_ptr(),
        fields_len: fields.len(),
        results: ptr::null(),
        results_len: 0,
        kind,
        supertype: 0,
        has_supertype: NO,
        is_final: Flag(1),
    }
}

/// What a core module exports, by its kind and its type.
const fn entity(kind: u32, ty: u32) -> Entity {
    Entity {
        minimum: 0,
        maximum: 0,
        kind,
        ty,
        index: 0,
        has_maximum: NO,
        is_long: NO,
        is_shared: NO,
    }
}

/// Members, the last of which has an unknown kind, or a name that isn't UTF-8.
const PARTS: *const Part = [part(A, 1, 0), part(A, 1, 9)].as_ptr();
const TEXTS: *const Part = [part(A, 1, 0), part(A, 1, 0), part(BAD, 1, 0)].as_ptr();
const NAMES: *const IndexName = [index_name(A), index_name(BAD)].as_ptr();
const TOOLS: *const Producer = [tool(b""), tool(b"\xff")].as_ptr();
/// A type, none, and a reference that isn't one of a value.
const TYPES: *const Part = [part(A, 1, 8), part(A, 1, 0), part(A, 1, 1)].as_ptr();
/// A type, and none.
const ELEMENTS: *const Pair = [pair(8), pair(0)].as_ptr();
const OPTIONS: *const Pair = [pair(0), pair(10)].as_ptr();
/// The second isn't a core type.
const CORE: &[Pair] = &[pair(1), pair(21)];
const SUBTYPES: *const Subtype = [subtype(2, &[]), subtype(2, CORE)].as_ptr();
/// Types in more than a hundred others.
static DEEP: LazyLock<Vec<u8>> =
    LazyLock::new(|| [&b"\x41\x01\x01".repeat(101)[..], b"\x41\0"].concat());

const ROWS: &[Row] = rows! { at:
    Held::builder {
        7 c"handle" [0] wenc_new(at);
        4 c"handle" [0] wenc_bytes(at, ptr::null_mut(), 8);
        7 c"space" [0] wenc_count(at, 13, OUT);
        7 c"handle" [0] wenc_len(at, ptr::null_mut());
        7 c"handle" [0] wenc_section_at(at, 0, ptr::null_mut());
        7 c"ref" [0] wenc_import(at, A, 1, 9, 0, OUT);
        7 c"name" [0] wenc_import_named(at, ptr::null(), 2, 0, OUT);
        7 c"kind" [0] wenc_export(at, A, 1, 6, 0, 0, 0, OUT);
        7 c"name" [0] wenc_export_named(at, ptr::null(), 0, 0, 0, 0, OUT);
        7 c"kind" [0] wenc_alias_export(at, 0, 6, A, 1, OUT);
        7 c"kind" [0] wenc_alias_instance_export(at, NONE, 0, 6, A, 1, OUT);
        7 c"kind" [0] wenc_alias_core_export(at, NONE, 0, 5, A, 1, OUT);
        7 c"bytes" [0] wenc_core_module(at, NONE, NULL, 1, OUT);
        7 c"nested" [0] wenc_component(at, NONE, at, OUT);
        7 c"nested" [0] wenc_component_ref(at, NONE, at, OUT);
        7 c"args" [0] wenc_start(at, 0, ptr::null(), 1, 0, OUT);
        7 c"function" [0] wenc_builtin(at, 0, 0, 0, OUT);
        7 c"options" [1] wenc_builtin_with(at, 1, 0, OPTIONS, 2, OUT);
        7 c"ref" [0] wenc_task_return(at, 1, 0, OPTIONS, 1, OUT);
        7 c"type" [0] wenc_context(at, 1, 6, 0, OUT);
        7 c"options" [1] wenc_lift(at, NONE, 0, 0, OPTIONS, 2, OUT);
        7 c"options" [1] wenc_lower(at, NONE, 0, OPTIONS, 2, OUT);
        5 c"args" [2] wenc_core_instantiate(at, NONE, 0, TEXTS, 3, OUT);
        7 c"exports" [1] wenc_core_exports(at, NONE, PARTS, 2, OUT);
        7 c"args" [1] wenc_instantiate(at, NONE, 0, PARTS, 2, OUT);
        5 c"items" [2] wenc_export_items(at, NONE, TEXTS, 3, OUT);
        7 c"producers" [0] wenc_producers(at, ptr::null(), 1);
        7 c"section" [0] wenc_section(at, at);
        7 c"handle" [0] wenc_names_component(at, A, 1);
        7 c"listing" [0] wenc_copy(at, NONE, at, 0, 0, OUT);
        5 c"bytes" [0] wenc_item(at, 2, NONE, A, 1, OUT);
        7 c"params" [1] wenc_type_function(at, NONE, NO, TYPES, 2, 0, 0, OUT);
        7 c"primitive" [0] wenc_type_primitive(at, NONE, 0, OUT);
        7 c"fields" [1] wenc_type_record(at, NONE, TYPES, 2, OUT);
        7 c"cases" [2] wenc_type_variant(at, NONE, TYPES, 3, OUT);
        7 c"ref" [0] wenc_type_list(at, NONE, 0, 0, OUT);
        7 c"ref" [0] wenc_type_fixed_length_list(at, NONE, 0, 0, 1, OUT);
        7 c"key_ref" [0] wenc_type_map(at, NONE, 0, 0, 3, 0, OUT);
        7 c"elements" [1] wenc_type_tuple(at, NONE, ELEMENTS, 2, OUT);
        5 c"flags" [2] wenc_type_flags(at, NONE, TEXTS, 3, OUT);
        5 c"cases" [2] wenc_type_enum(at, NONE, TEXTS, 3, OUT);
        7 c"ref" [0] wenc_type_option(at, NONE, 0, 0, OUT);
        7 c"err_ref" [0] wenc_type_result(at, NONE, 0, 0, 9, 0, OUT);
        7 c"ref" [0] wenc_type_future(at, NONE, 9, 0, OUT);
        7 c"ref" [0] wenc_type_stream(at, NONE, 9, 0, OUT);
        7 c"types" [0] wenc_type(at, NONE, at, OUT);
        7 c"results" [1] wenc_core_type_function(at, NONE, CORE.as_ptr(), 1, CORE.as_ptr(), 2, OUT);
        7 c"fields" [1] wenc_core_type_struct(at, NONE, CORE.as_ptr(), 2, OUT);
        7 c"element" [0] wenc_core_type_array(at, NONE, 21, 0, OUT);
        7 c"subtype" [0] wenc_core_type_subtype(at, NONE, &subtype(4, &[]), OUT);
        7 c"subtypes" [1] wenc_core_type_group(at, NONE, SUBTYPES, 2, OUT);
        5 c"name" [0] wenc_import(at, BAD, 1, 2, 0, OUT);
        7 c"name" [0] wenc_import(at, NULL, 1, 2, 0, OUT);
        7 c"name" [0] wenc_import(at, A, usize::MAX, 2, 0, OUT);
        7 c"ref" [0] wenc_import(at, A, 1, 0, 0, OUT);
        7 c"ref" [0] wenc_import(at, A, 1, u32::MAX, 0, OUT);
        7 c"ref" [0] wenc_import(at, A, 1, 8, 15, OUT);
        7 c"ref" [0] wenc_export(at, A, 1, 1, 0, 9, 0, OUT);
        7 c"kind" [0] wenc_alias_outer(at, NONE, 4, 0, 0, OUT);
        5 c"debug_name" [0] wenc_alias_outer(at, &BAD_TEXT, 0, 0, 0, OUT);
        5 c"name" [0] wenc_import_named(at, &Name { name: BAD_TEXT, ..Name::NONE }, 2, 0, OUT);
        5 c"name" [0]
            wenc_import_named(at, &Name { implements: BAD_TEXT, ..Name::NONE }, 2, 0, OUT);
        5 c"name" [0]
            wenc_import_named(at, &Name { version_suffix: BAD_TEXT, ..Name::NONE }, 2, 0, OUT);
        5 c"name" [0]
            wenc_import_named(at, &Name { external_id: BAD_TEXT, ..Name::NONE }, 2, 0, OUT);
        7 c"debug_name" [0] wenc_core_module(at, &Text { at: NULL, len: 1 }, A, 1, OUT);
        9 c"nested" [0] wenc_component(at, NONE, Held::nothing().at(), OUT);
        7 c"section" [0] wenc_item(at, 12, NONE, A, 1, OUT);
        5 c"bytes" [0] wenc_item(at, 0, NONE, b"\x02x".as_ptr(), 2, OUT);
        5 c"bytes" [0] wenc_item(at, 7, NONE, b"\x40\0\x01\0\0"[..].as_ptr(), 5, OUT);
        5 c"bytes" [0] wenc_item(at, 9, NONE, A, 1, OUT);
        6 c"bytes" [0] wenc_item(at, 7, NONE, DEEP.as_ptr(), DEEP.len(), OUT);
        5 c"name" [0] wenc_custom_section(at, BAD, 1, BAD, 1);
        7 c"data" [0] wenc_custom_section(at, NULL, 0, NULL, 1);
        7 c"function" [0] wenc_builtin(at, u32::MAX, 0, 0, OUT);
        7 c"first" [0] wenc_builtin(at, 5, 2, 0, OUT);
        7 c"second" [0] wenc_builtin(at, 9, 0, 2, OUT);
        7 c"second" [0] wenc_builtin(at, 15, 0, 2, OUT);
        7 c"function" [0] wenc_builtin_with(at, u32::MAX, 0, OPTIONS, 1, OUT);
        7 c"function" [0] wenc_context(at, 3, 1, 0, OUT);
        7 c"ref" [0] wenc_type_function(at, NONE, NO, TYPES, 1, 1, 0, OUT);
        7 c"elements" [0] wenc_type_tuple(at, NONE, OPTIONS, 1, OUT);
        7 c"elements" [0] wenc_type_tuple(at, NONE, OPTIONS, MOST, OUT);
        7 c"ref" [0] wenc_type_map(at, NONE, 3, 0, 0, 0, OUT);
        7 c"ok_ref" [0] wenc_type_result(at, NONE, 9, 0, 0, 0, OUT);
        7 c"flags" [0] wenc_type_flags(at, NONE, ptr::null(), 1, OUT);
        7 c"types" [0] wenc_type(at, NONE, Held::names().at(), OUT);
        7 c"handle" [0] wenc_type_export(at, NULL, 0, 7, 0, OUT);
        7 c"params" [1] wenc_core_type_function(at, NONE, CORE.as_ptr(), 2, CORE.as_ptr(), 2, OUT);
        7 c"element" [0] wenc_core_type_array(at, NONE, 0x400 + 1, 0, OUT);
        7 c"element" [0] wenc_core_type_array(at, NONE, 0x100 + 1, 0, OUT);
        7 c"subtype" [0] wenc_core_type_subtype(at, NONE, ptr::null(), OUT);
        7 c"subtype" [0] wenc_core_type_subtype(at, NONE, &subtype(3, &[]), OUT);
        7 c"handle" [0] wenc_core_type_export(at, NULL, 0, &entity(0, 0));
        5 c"producers" [1] wenc_producers(at, TOOLS, 2);
        7 c"handle" [0] wenc_raw_section(at, 1, A, 1);
        7 c"handle" [0] wenc_names_component(at, NULL, 0);
    }
    module {
        7 c"handle" [0] wenc_by_hand_new(at);
        7 c"handle" [0] wenc_finish(at, ptr::null_mut(), ptr::null_mut());
        7 c"space" [0] wenc_count(at, 12, OUT);
        7 c"kind" [0] wenc_alias_outer(at, NONE, 0, 0, 0, OUT);
        7 c"handle" [0] wenc_type_borrow(at, NONE, 0, OUT);
        7 c"entity" [0] wenc_core_type_import(at, A, 1, A, 1, &entity(5, 0));
        7 c"entity" [0] wenc_core_type_export(at, A, 1, ptr::null());
        7 c"entity" [0] wenc_core_type_export(at, NULL, 0, ptr::null());
        7 c"entity" [0] wenc_core_type_export(at, NULL, 0, &entity(5, 0));
        7 c"entity" [0] wenc_core_type_export(at, NULL, 0, &entity(1, 1));
        7 c"entity" [0] wenc_core_type_export(at, NULL, 0, &entity(3, 19));
    }
    finished {
        7 c"handle" [0] wenc_types_new(at, 4);
        7 c"len" [0] wenc_bytes(at, ptr::null_mut(), 9);
        7 c"bytes" [0] wenc_bytes(at, ptr::null_mut(), 8);
        8 c"handle" [0] wenc_count(at, 0, OUT);
        8 c"handle" [0] wenc_len(at, ptr::null_mut());
        8 c"handle" [0] wenc_item_at(at, 0, 0, ptr::null_mut());
        8 c"handle" [0] wenc_type_own(at, NONE, 0, OUT);
        8 c"handle" [0] wenc_import(at, A, 1, 2, 0, OUT);
        8 c"handle" [0] wenc_type_own(at, MEMORY, 0, OUT);
    }
    Held::names {
        7 c"handle" [0] wenc_section_new(at, 10);
        7 c"handle" [0] wenc_count(at, 0, OUT);
        5 c"names" [1] wenc_names_items(at, 0, NAMES, 2);
        7 c"bytes" [0] wenc_names_raw(at, 0, NULL, 1);
        7 c"space" [0] wenc_names_items(at, 13, NAMES.add(1), 1);
        5 c"names" [0] wenc_names_items(at, 0, NAMES.add(1), 1);
    }
    listing {
        7 c"handle" [0] wenc_names_new(at);
        7 c"handle" [0] wenc_bytes(at, ptr::null_mut(), 8);
        7 c"number" [0] wenc_section_at(at, 1, ptr::null_mut());
        7 c"section" [0] wenc_item_at(at, 1, 0, ptr::null_mut());
        7 c"number" [0] wenc_item_at(at, 0, 1, ptr::null_mut());
    }
    Held::by_hand {
        7 c"handle" [0] wenc_list(at, A, 1, ptr::null_mut());
        7 c"bytes" [0] wenc_component_bytes(at, NONE, NULL, 1, OUT);
        7 c"data" [0] wenc_custom_section(at, A, 1, NULL, 1);
        7 c"bytes" [0] wenc_raw_custom_section(at, NULL, 1);
        7 c"bytes" [0] wenc_raw_section(at, 0, NULL, 1);
    }
    component_type {
        7 c"space" [0] wenc_count(at, 8, OUT);
        7 c"handle" [0] wenc_append_names(at);
        7 c"debug_name" [0] wenc_type_resource(at, MEMORY, NO, 0, OUT);
        7 c"ref" [0] wenc_type_export(at, A, 1, 9, 0, OUT);
        7 c"name" [0] wenc_type_export_named(at, ptr::null(), 2, 0, OUT);
        7 c"debug_name" [0] wenc_type_own(at, MEMORY, 0, OUT);
        7 c"ref" [0] wenc_type_export(at, NULL, 0, 9, 0, OUT);
        7 c"handle" [0] wenc_finish(at, ptr::null_mut(), ptr::null_mut());
    }
};

/// Each call of the header has its row, except for those of a walk, which has no handle.
#[test]
fn each_call_has_its_row() {
    let (of_handles, others): (Vec<_>, Vec<_>) =
        calls().into_iter().partition(|(_, ty)| ty.ends_with("wenc_handle"));
    assert!(others.iter().all(|(name, _)| name.starts_with("wenc_walk_")), "{others:?}");
    let named: BTreeSet<_> = of_handles.into_iter().map(|(name, _)| name).collect();
    let mut in_rows: BTreeSet<_> = ROWS.iter().map(Row::call_name).collect();
    // it fails if nothing is owned alone
    in_rows.insert("wenc_last_error");
    assert_eq!((named.len(), others.len()), (74, 7));
    assert_eq!(in_rows, named);
}

/// The error of a name that isn't UTF-8.
const NOT_UTF8: (u32, Option<&CStr>, usize) = (5, Some(c"name"), 0);

/// Makes a call fail with that error, or with another one if it was that.
fn plant(handle: *mut Handle, error: (u32, Option<&CStr>, usize)) {
    let (name, planted) =
        if error == NOT_UTF8 { (NULL, (7, Some(c"name"), 0)) } else { (BAD, NOT_UTF8) };
    unsafe { wenc_custom_section(handle, name, 1, NULL, 0) };
    assert_eq!(last_error(handle), planted);
}

/// What a handle has: the bytes of a component, or of one with its types or its section.
fn content(mut held: Held) -> Vec<u8> {
    let (mut builder, mut by_hand, none) = (Held::builder(), Held::by_hand(), ptr::null());
    let at = held.at();
    unsafe {
        if wenc_finish(at, ptr::null_mut(), ptr::null_mut()) == Status::Done {
            return held.finished();
        }
        if wenc_type(builder.at(), none, at, OUT) == Status::Done {
            return builder.finished();
        }
        _ = wenc_section(by_hand.at(), at);
    }
    by_hand.finished()
}

/// The error is that of the last call that failed, whatever failed before it. A call that fails
/// adds nothing.
#[test]
fn each_call_is_told_of() {
    for &Row { name, begin, call, error } in ROWS {
        let mut held = begin();
        let at = held.at();
        assert_eq!(last_error(at), (0, None, 0), "{name}");
        for _ in 0..2 {
            let status = call(at) as u32;
            assert_eq!((status, last_error(at)), (error.0, error), "{name}");
            assert_eq!(last_error(at), error, "{name}: it was read");
            plant(at, error);
        }
        assert_eq!(content(held), content(begin()), "{name}");
    }
    // a module type without declarations
    assert_eq!(content(Held::types(0))[8..], *b"\x03\x03\x01\x50\0");
}

/// A call that succeeds keeps the error of a call before it, whether that only reads or not.
#[test]
fn calls_that_succeed_leave_it() {
    let mut builder = Held::builder();
    let at = builder.at();
    assert_eq!(unsafe { wenc_count(at, 13, OUT) }, Status::BadArgument);
    assert_eq!(unsafe { wenc_import(at, A, 1, 7, 0, OUT) }, Status::Done);
    assert_eq!(last_error(at), (7, Some(c"space"), 0));
    plant(at, (0, None, 0));
    assert_eq!(unsafe { wenc_count(at, 12, OUT) }, Status::Done);
    assert_eq!(last_error(at), NOT_UTF8);
}

/// A handle that owns nothing has no error, even after a call that failed to create something.
#[test]
fn nothing_has_no_error() {
    let begins = |name: &str| name.ends_with("_new") || name == "wenc_list";
    for row in ROWS {
        let Row { name, call, .. } = row;
        assert_eq!(call(ptr::null_mut()), Status::NoHandle, "{name}");
        let mut nothing = Held::nothing();
        if !begins(row.call_name()) {
            assert_eq!(call(nothing.at()), Status::NoHandle, "{name}");
        }
    }
    let mut nothing = Held::nothing();
    let at = nothing.at();
    let of_types = [1, 2, 3, 6].map(|kind| unsafe { wenc_types_new(at, kind) });
    let of_sections = [0, 1, 4, 9, 12].map(|section| unsafe { wenc_section_new(at, section) });
    let listed = [unsafe { wenc_list(at, EMPTY, 1, ptr::null_mut()) }];
    let mut statuses = of_types.into_iter().chain(of_sections).chain(listed);
    assert!(statuses.all(|status| status == Status::BadArgument) && nothing.is_nothing());
    assert_eq!(unsafe { wenc_last_error(nothing.at(), ptr::null_mut()) }, Status::NoHandle);
}

/// Several threads make calls that fail, each a different one: the error is one of theirs.
#[cfg_attr(target_family = "wasm", ignore = "it has no threads")]
#[test]
fn threads_read_at_a_time() {
    let calls: [(fn(*mut Handle) -> Status, &CStr); 3] = [
        (|at| unsafe { wenc_count(at, 13, OUT) }, c"space"),
        (|at| unsafe { wenc_section_at(at, 9, ptr::null_mut()) }, c"number"),
        (|at| unsafe { wenc_item_at(at, 9, 0, ptr::null_mut()) }, c"section"),
    ];
    let mut listing = listing();
    let at = listing.at() as usize;
    std::thread::scope(|scope| {
        for (call, _) in calls {
            scope.spawn(move || {
                let at = at as *mut Handle;
                for _ in 0..10_000 {
                    assert_eq!(call(at), Status::BadArgument);
                    let (status, argument, member) = last_error(at);
                    assert_eq!((status, member), (7, 0));
                    assert!(calls.iter().any(|(_, of)| Some(*of) == argument), "{argument:?}");
                }
            });
        }
    });
}

/// An argument that is too large by itself is named. It isn't read.
#[cfg(target_pointer_width = "64")]
#[test]
fn what_is_too_large_is_named() {
    const LARGE: usize = 1 << 32;
    const TEXT: &Text = &Text { at: A, len: LARGE };
    const MEMBERS: *const Part = [part(A, 1, 0), part(A, LARGE, 0)].as_ptr();
    const ROWS: &[Row] = rows! { at:
        Held::builder {
            3 c"name" [0] wenc_import(at, A, LARGE, 7, 0, OUT);
            3 c"debug_name" [0] wenc_type_own(at, TEXT, 0, OUT);
            3 c"bytes" [0] wenc_core_module(at, NONE, A, LARGE, OUT);
            3 c"data" [0] wenc_custom_section(at, A, 1, A, LARGE);
            3 c"bytes" [0] wenc_item(at, 1, NONE, A, LARGE, OUT);
            3 c"flags" [1] wenc_type_flags(at, NONE, MEMBERS, 2, OUT);
            2 c"args" [0] wenc_start(at, 0, [0].as_ptr(), LARGE, 0, OUT);
            2 c"fields" [0] wenc_type_record(at, NONE, TYPES, LARGE, OUT);
        }
        Held::by_hand {
            3 c"bytes" [0] wenc_component_bytes(at, NONE, A, LARGE, OUT);
            3 c"bytes" [0] wenc_raw_section(at, 0, A, LARGE);
        }
        Held::names {
            3 c"bytes" [0] wenc_names_raw(at, 0, A, LARGE);
        }
    };
    for &Row { name, begin, call, error } in ROWS {
        let mut held = begin();
        assert_eq!((call(held.at()) as u32, last_error(held.at())), (error.0, error), "{name}");
    }
    // twice as many values as have an index of 32 bits
    let mut values = Held::listing(
        b"\0asm\x0d\0\x01\0\x09\x07\0\0\xff\xff\xff\xff\x0f\
        \x09\x07\0\0\xff\xff\xff\xff\x0f",
    );
    assert_eq!(unsafe { wenc_count(values.at(), 10, OUT) }, Status::TooLarge);
    assert_eq!(last_error(values.at()), (3, Some(c"space"), 0));
}
