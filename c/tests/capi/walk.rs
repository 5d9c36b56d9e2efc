//! The walk over a component, and over its debug names.

use super::called::called;
use super::edges::{Held, written};
use super::numbers;
use std::collections::BTreeMap;
use std::ops::Range;
use std::{mem, ptr, slice, str};
use wenc::tree::{AliasTree, Command, NameOptions, NameTree};
use wenc::view::ItemView;
use wenc::{ComponentTypeRef, DebugNames, SectionReader, Sections};
use wenc_calls::corpus;
use wenc_calls::refuse::requested;
use wenc_capi::arguments::{Name, Text};
use wenc_capi::component_types::wenc_type;
use wenc_capi::items::*;
use wenc_capi::life::{wenc_bytes, wenc_count, wenc_finish, wenc_len};
use wenc_capi::listing::*;
use wenc_capi::rows::{ItemRow, SectionRow};
use wenc_capi::walk::*;
use wenc_capi::{Handle, Status};

/// A type, an import, an export, three aliases, a custom section, a core module and a start.
const COMPONENT: &[u8] = b"\0asm\x0d\0\x01\0\
    \x07\x05\x01\x40\0\x01\0\
    \x0a\x0c\x01\x02\x01a\x02\0\x01i\x02\0\x01\0\
    \x0b\x09\x01\0\x01g\x01\0\x01\x01\0\
    \x06\x11\x03\0\x10\x02\x01\x02\0\x04\x01\0\x01t\x01\0\x05\x01f\
    \0\x03\x01xy\
    \x01\x08\0asm\x01\0\0\0\
    \x09\x03\0\0\x02";

pub fn begun(bytes: &[u8]) -> Walk {
    let begin = |to| unsafe { wenc_walk_begin(to, bytes.as_ptr(), bytes.len()) };
    written(begin).expect("a component")
}

pub fn next_section(walk: &mut Walk) -> Result<SectionRow, Status> {
    written(|to| unsafe { wenc_walk_section(walk, to) })
}

pub fn next_item(walk: &mut Walk) -> Result<ItemRow, Status> {
    written(|to| unsafe { wenc_walk_item(walk, to) })
}

fn next_name(names: &mut NamesWalk) -> Result<(u32, u32, &'static str), Status> {
    let name: DebugName = written(|to| unsafe { wenc_walk_name(names, to) })?;
    Ok((name.space, name.index, text(name.name).expect("a name")))
}

/// A text that was written, while its bytes exist.
pub fn text(text: Text) -> Option<&'static str> {
    if text.at.is_null() {
        assert_eq!(text.len, 0);
        return None;
    }
    str::from_utf8(unsafe { slice::from_raw_parts(text.at, text.len) }).ok()
}

fn texts(name: Name) -> [Option<&'static str>; 4] {
    [name.name, name.implements, name.version_suffix, name.external_id].map(text)
}

fn section(row: SectionRow) -> [usize; 5] {
    [row.place, row.len, row.content, row.items, row.id as usize]
}

/// All sections and items of a component, with what follows the last.
fn walked(bytes: &[u8]) -> (Vec<SectionRow>, Vec<ItemRow>, Status) {
    let (mut walk, mut sections, mut items) = (begun(bytes), Vec::new(), Vec::new());
    assert_eq!((walk.next_section, walk.next_item, walk.end, walk.items, walk.id), (8, 0, 0, 0, 0));
    assert_eq!(next_item(&mut walk).map(drop), Err(Status::End), "no section is begun");
    loop {
        match next_section(&mut walk) {
            Ok(section) => sections.push(section),
            Err(status) => return (sections, items, status),
        }
        loop {
            match next_item(&mut walk) {
                Ok(item) => items.push(item),
                Err(Status::End) => break,
                Err(status) => return (sections, items, status),
            }
        }
    }
}

/// All items of a component, with what follows the last.
pub fn items(bytes: &[u8]) -> (Vec<ItemRow>, Status) {
    let (_, items, status) = walked(bytes);
    (items, status)
}

/// The fields of a row except its byte offset, its spaces and its texts.
fn rest(item: &ItemRow) -> [u32; 6] {
    [item.reference, item.of, item.alias, item.kind, item.item, item.count]
}

/// The fields of a row for a type, which may have no index.
fn of_type(ty: ComponentTypeRef) -> [u32; 2] {
    match numbers::type_ref(ty) {
        (7, _) => [7, 0],
        (reference, of) => [reference, of],
    }
}

fn names_of(name: &NameTree) -> [Option<&str>; 4] {
    let option = |of: fn(&NameOptions) -> Option<&str>| name.options.as_deref().and_then(of);
    [
        Some(&name.name),
        option(|options| options.implements.as_deref()),
        option(|options| options.version_suffix.as_deref()),
        option(|options| options.external_id.as_deref()),
    ]
}

/// Expects that the row describes the item as the command does.
pub fn is_described<'a>(row: &ItemRow, command: &'a Command) {
    let plain = |name: &'a str| [Some(name), None, None, None];
    let (names, [reference, of], [alias, kind, item, count]) = match command {
        Command::Import { name, ty } => (names_of(name), of_type(*ty), [0; 4]),
        Command::Export { name, kind, index, ty } => {
            let target = [0, numbers::kind(*kind), *index, 0];
            (names_of(name), ty.map_or([0; 2], of_type), target)
        }
        Command::Alias { alias: AliasTree::InstanceExport { instance, kind, name }, .. } => {
            (plain(name), [0; 2], [1, numbers::kind(*kind), *instance, 0])
        }
        Command::Alias {
            alias: AliasTree::CoreInstanceExport { instance, kind, name }, ..
        } => (plain(name), [0; 2], [2, numbers::core_kind(*kind), *instance, 0]),
        Command::Alias { alias: AliasTree::Outer { kind, count, index }, .. } => {
            ([None; 4], [0; 2], [3, numbers::outer_kind(*kind), *index, *count])
        }
        Command::Custom { name, .. } => (plain(name), [0; 2], [0; 4]),
        _ => ([None; 4], [0; 2], [0; 4]),
    };
    assert_eq!(texts(row.name), names);
    assert_eq!(rest(row), [reference, of, alias, kind, item, count]);
}

fn places(item: &ItemRow) -> (usize, usize, u32, u32, u32) {
    (item.place, item.len, item.section, item.space, item.indices)
}

/// Empty texts and bytes are `""`, which a program may read as a string.
#[test]
fn what_is_empty_is_a_string() {
    let component = b"\0asm\x0d\0\x01\0\0\x01\0\x01\0\x0a\x05\x01\0\0\x01\0";
    let (items, status) = items(component);
    assert_eq!((items.len(), status), (3, Status::End));
    let empty = [items[0].name.name.at, items[0].bytes, items[1].bytes, items[2].name.name.at];
    for at in empty {
        assert_eq!(unsafe { *at }, 0);
    }
    let lens = [items[0].name.name.len, items[0].bytes_len, items[1].bytes_len];
    assert_eq!(lens, [0; 3]);
}

#[test]
fn a_walk_goes_on_behind_what_it_cannot_read() {
    // An unknown builtin after a known one; a section with an unknown id; a missing count; and an
    // import.
    let bytes =
        b"\0asm\x0d\0\x01\0\x08\x04\x02\x05\xff\0\x0c\x01\x07\x06\0\x0a\x06\x01\0\x01f\x01\0";
    let mut walk = begun(bytes);
    assert_eq!(next_section(&mut walk).map(section), Ok([8, 6, 10, 2, 8]));
    assert_eq!(next_item(&mut walk).map(|item| item.place), Ok(11));
    for _ in 0..2 {
        assert_eq!(next_item(&mut walk).err(), Some(Status::BadItem));
        assert_eq!((walk.next_item, walk.items), (12, 1));
    }
    assert_eq!(next_section(&mut walk).err(), Some(Status::BadSection));
    assert_eq!(walk.next_section, 14);
    // The items before it are unchanged.
    assert_eq!(next_item(&mut walk).err(), Some(Status::BadItem));
    let skipped = written(|to| unsafe { wenc_walk_skip(&mut walk, to) });
    assert_eq!(skipped.map(section), Ok([14, 3, 16, 0, 12]));
    assert_eq!(next_item(&mut walk).err(), Some(Status::End));
    assert_eq!(next_section(&mut walk).err(), Some(Status::BadItem));
    assert_eq!(unsafe { wenc_walk_skip(&mut walk, ptr::null_mut()) }, Status::Done);
    assert_eq!(next_section(&mut walk).map(section), Ok([19, 8, 21, 1, 10]));
    assert_eq!(next_item(&mut walk).map(|item| (item.place, item.len)), Ok((22, 5)));
    assert_eq!(unsafe { wenc_walk_skip(&mut walk, ptr::null_mut()) }, Status::End);
}

#[test]
fn a_walk_says_what_is_wrong() {
    let status = |bytes: &[u8]| items(bytes).1;
    let after = |bytes: &[u8]| status(&[b"\0asm\x0d\0\x01\0", bytes].concat());
    assert_eq!(after(b""), Status::End);
    assert_eq!(after(b"\x07"), Status::BadSection);
    assert_eq!(after(b"\x07\x05\x01"), Status::BadSection);
    assert_eq!(after(b"\0\x02\x02x"), Status::BadSection);
    assert_eq!(after(b"\x07\x05\0\x40\0\x01\0"), Status::BadItem);
    assert_eq!(after(b"\x07\x05\x02\x40\0\x01\0"), Status::BadItem);
    let mut deep = b"\x07\xb2\x02\x01".to_vec();
    deep.extend_from_slice(&b"\x41\x01\x01".repeat(101));
    deep.extend_from_slice(b"\x41\0");
    assert_eq!(after(&deep), Status::TooDeep);
    let mut walk: Walk = unsafe { mem::zeroed() };
    for bytes in [&b""[..], b"\0asm\x01\0\0\0", b"\0asm\x0d\0\x01"] {
        let status = unsafe { wenc_walk_begin(&mut walk, bytes.as_ptr(), bytes.len()) };
        assert_eq!((status, walk.bytes), (Status::NotAComponent, ptr::null()));
    }
}

#[test]
fn bad_arguments_of_walks() {
    let (none, a) = (ptr::null_mut(), COMPONENT.as_ptr());
    let mut walk: Walk = unsafe { mem::zeroed() };
    let mut names: NamesWalk = unsafe { mem::zeroed() };
    let mut row: ItemRow = unsafe { mem::zeroed() };
    let statuses = unsafe {
        [
            wenc_walk_begin(ptr::null_mut(), a, 8),
            wenc_walk_begin(&mut walk, ptr::null(), 8),
            wenc_walk_begin(&mut walk, a, usize::MAX),
            wenc_walk_section(ptr::null_mut(), ptr::null_mut()),
            wenc_walk_skip(ptr::null_mut(), ptr::null_mut()),
            wenc_walk_item(ptr::null_mut(), ptr::null_mut()),
            wenc_walk_names(ptr::null_mut(), &row),
            wenc_walk_names(&mut names, ptr::null()),
            wenc_walk_name(ptr::null_mut(), ptr::null_mut()),
            // What wasn't begun.
            wenc_walk_section(&mut walk, ptr::null_mut()),
            wenc_walk_skip(&mut walk, ptr::null_mut()),
            wenc_walk_item(&mut walk, &mut row),
            wenc_walk_name(&mut names, none),
        ]
    };
    assert_eq!(statuses, [Status::BadArgument; 13]);
    bad_values_in_walks();
}

/// Any offset, id and number.
fn bad_values_in_walks() {
    let any = [0, 1, 9, 58, COMPONENT.len(), COMPONENT.len() + 1, usize::MAX];
    let mut read = 0;
    for (next_item, end, items, id) in any.into_iter().flat_map(|at| {
        any.into_iter().flat_map(move |end| {
            [0, 1, u32::MAX]
                .into_iter()
                .flat_map(move |n| [0, 7, 12, 256].map(|id| (at, end, n, id)))
        })
    }) {
        let changed = Walk { next_section: end, next_item, end, items, id, ..begun(COMPONENT) };
        let is_bad = next_item > end || end > COMPONENT.len() || id > 255;
        let (mut one, mut other) = (changed, changed);
        let status = unsafe { wenc_walk_item(&mut one, ptr::null_mut()) };
        assert_eq!(status == Status::BadArgument, is_bad);
        read += usize::from(status == Status::Done);
        let status = unsafe { wenc_walk_section(&mut other, ptr::null_mut()) };
        assert_eq!(status == Status::BadArgument, end > COMPONENT.len());
    }
    assert!(read > 10);
}

/// A result isn't written if its pointer is NULL.
#[test]
fn a_walk_without_results() {
    let mut walk = begun(COMPONENT);
    unsafe {
        assert_eq!(wenc_walk_item(&mut walk, ptr::null_mut()), Status::End);
        assert_eq!(wenc_walk_section(&mut walk, ptr::null_mut()), Status::Done);
        assert_eq!(wenc_walk_item(&mut walk, ptr::null_mut()), Status::Done);
        assert_eq!(wenc_walk_item(&mut walk, ptr::null_mut()), Status::End);
        assert_eq!(wenc_walk_skip(&mut walk, ptr::null_mut()), Status::Done);
        assert_eq!(next_section(&mut walk).map(section), Ok([29, 11, 31, 1, 11]));
    }
}

/// The names of a component, of two functions, of nothing, and of a type; and a subsection with
/// another id.
const NAMES: &[u8] = b"\0\x02\x01c\x01\x08\x01\x02\x00\x01g\xff\x01\0\x09\x01z\x01\x02\x02\0\
    \x01\x06\x03\x01\x05\x02\xc3\xa9";

/// The only item of a component with a custom section.
fn custom(name: &[u8], data: &[u8]) -> (Vec<u8>, ItemRow) {
    let content = [&[name.len() as u8], name, data].concat();
    let bytes = [b"\0asm\x0d\0\x01\0\0", &[content.len() as u8][..], &content].concat();
    let item = items(&bytes).0[0];
    (bytes, item)
}

fn names_in(data: &[u8]) -> (Vec<(u32, u32, &'static str)>, Status) {
    let (_bytes, item) = custom(b"component-name", data);
    let mut walk = written(|to| unsafe { wenc_walk_names(to, &item) }).expect("names");
    let mut names = Vec::new();
    loop {
        match next_name(&mut walk) {
            Ok((space, index, name)) => names.push((space, index, String::leak(name.into()) as &_)),
            Err(status) => return (names, status),
        }
    }
}

#[test]
fn debug_names_are_read() {
    let expected = [(13, 0, "c"), (8, 0, "g"), (8, 255, ""), (12, 5, "\u{e9}")];
    assert_eq!(names_in(NAMES), (expected.to_vec(), Status::End));
    assert_eq!(names_in(b""), (Vec::new(), Status::End));
    // A subsection that exceeds the bytes, after another; a count of two before one name.
    let bad = |data| names_in(data);
    assert_eq!(bad(b"\0\x02\x01c\x01\x03\x01"), (expected[..1].to_vec(), Status::Malformed));
    assert_eq!(bad(b"\x01\x05\x01\x02\0\x01g"), (Vec::new(), Status::Malformed));
    assert_eq!(bad(b"\0\x02\x01\xff"), (Vec::new(), Status::Malformed));
    let mut names: NamesWalk = unsafe { mem::zeroed() };
    for (name, expected) in [(&b"component-name"[..], Status::Done), (b"name", Status::BadArgument)]
    {
        let (_bytes, item) = custom(name, NAMES);
        assert_eq!(unsafe { wenc_walk_names(&mut names, &item) }, expected);
        let status = unsafe { wenc_walk_names(ptr::null_mut(), &item) };
        assert_eq!(status, Status::BadArgument);
    }
    let import = &items(COMPONENT).0[1];
    assert_eq!(unsafe { wenc_walk_names(&mut names, import) }, Status::BadArgument);
}

/// A listing has the sections and rows of the walk, with indices; its texts are its own.
#[test]
fn a_listing_has_the_rows_of_the_walk() {
    let mut copy = COMPONENT.to_vec();
    let (mut listing, mut walk) = (Held::listing(&copy), begun(COMPONENT));
    copy.fill(0xff);
    let (at, none, mut indices) = (listing.at(), ptr::null_mut(), Vec::new());
    for number in 0..7 {
        let listed = written(|to| unsafe { wenc_section_at(at, number, to) }).expect("a section");
        assert_eq!(next_section(&mut walk).map(section), Ok(section(listed)));
        for item in 0..listed.items {
            let row = written(|to| unsafe { wenc_item_at(at, number, item, to) });
            let row: ItemRow = row.expect("an item");
            let expected = next_item(&mut walk).expect("an item");
            assert_eq!((places(&row), texts(row.name)), (places(&expected), texts(expected.name)));
            assert_eq!((rest(&row), row.bytes_len), (rest(&expected), expected.bytes_len));
            indices.push(row.index);
        }
        let status = unsafe { wenc_item_at(at, number, listed.items, ptr::null_mut()) };
        assert_eq!(status, Status::BadArgument);
    }
    assert_eq!(indices, [0, 0, 1, 0, 0, 2, 0, 0, 0]);
    let mut builder = Held::builder();
    let to = builder.at();
    unsafe {
        assert_eq!(written(|to| wenc_len(at, to)), Ok(7));
        assert_eq!(wenc_section_at(at, 7, ptr::null_mut()), Status::BadArgument);
        assert_eq!(wenc_item_at(at, 7, 0, ptr::null_mut()), Status::BadArgument);
        assert_eq!(wenc_copy(to, ptr::null(), at, 1, 1, none), Status::BadArgument);
        assert_eq!(wenc_copy(at, ptr::null(), to, 0, 0, none), Status::BadArgument);
        // A handle that read nothing has no sections, and the space is unknown.
        assert_eq!(wenc_section_at(to, 0, ptr::null_mut()), Status::BadArgument);
        assert_eq!(wenc_len(to, ptr::null_mut()), Status::BadArgument);
        assert_eq!(wenc_count(to, 13, ptr::null_mut()), Status::BadArgument);
    }
}

/// In quadratic time, by a walk from the start to each item, this wouldn't end within the time
/// limit of the gate.
#[test]
fn a_walk_is_linear() {
    let items_len = 2_000_000;
    let head = b"\0asm\x0d\0\x01\0\x08\x83\x89\x7a\x80\x89\x7a";
    let bytes = [&head[..], &b"\x05".repeat(items_len)].concat();
    let ((), requested) = requested(|| {
        let mut walk = begun(&bytes);
        next_section(&mut walk).expect("a section");
        for place in head.len()..bytes.len() {
            assert_eq!(next_item(&mut walk).map(|item| item.place), Ok(place));
        }
        assert_eq!(next_item(&mut walk).map(drop), Err(Status::End));
    });
    assert_eq!(requested, 0);
}

/// Calls that only read are made by several threads at a time.
#[cfg_attr(target_family = "wasm", ignore = "it has no threads")]
#[test]
fn readers_at_a_time() {
    struct Shared(*const Handle, *const Handle, *const Handle);
    unsafe impl Sync for Shared {}
    impl Shared {
        fn read(&self, expected: &[u8]) {
            let (mut builder, none) = (Held::builder(), ptr::null_mut());
            let (mut row, mut copy) = (unsafe { mem::zeroed() }, Vec::new());
            copy.resize(expected.len(), 0);
            for _ in 0..200 {
                unsafe {
                    assert_eq!(wenc_item_at(self.0, 3, 2, &mut row), Status::Done);
                    let copied = wenc_copy(builder.at(), ptr::null(), self.0, 1, 0, none);
                    assert_eq!(copied, Status::Done);
                    assert_eq!(text(row.name.name), Some("f"));
                    assert_eq!(wenc_bytes(self.1, copy.as_mut_ptr(), copy.len()), Status::Done);
                    let mut types = Held::builder();
                    assert_eq!(wenc_type(types.at(), ptr::null(), self.2, none), Status::Done);
                    assert_eq!(types.finished()[8..], *b"\x07\x03\x01\x42\0");
                }
                assert_eq!(copy, expected);
            }
            assert_eq!(builder.finished().len(), 8 + 5 + 200 * 11);
        }
    }
    let (mut listing, mut types) = (Held::listing(COMPONENT), Held::types(5));
    let (mut finished, none) = (Held::builder(), ptr::null_mut());
    let module = b"xyz".as_ptr();
    unsafe {
        assert_eq!(wenc_core_module(finished.at(), ptr::null(), module, 3, none), Status::Done);
        assert_eq!(wenc_finish(finished.at(), ptr::null_mut(), ptr::null_mut()), Status::Done);
    }
    let expected = b"\0asm\x0d\0\x01\0\x01\x03xyz";
    let shared = Shared(listing.at(), finished.at(), types.at());
    std::thread::scope(|scope| {
        for _ in 0..4 {
            scope.spawn(|| shared.read(expected));
        }
    });
}

/// The items of a walk, each added again by its bytes.
fn copied(bytes: &[u8], rows: &[ItemRow]) -> Vec<u8> {
    let mut builder = Held::builder();
    for row in rows {
        let item = &bytes[row.place..][..row.len];
        let (at, len, none) = (item.as_ptr(), item.len(), ptr::null_mut());
        let status = unsafe { wenc_item(builder.at(), row.section, ptr::null(), at, len, none) };
        assert_eq!(status, Status::Done);
    }
    builder.finished()
}

/// The component as Rust reads and writes it again.
fn relisted(bytes: &[u8]) -> Vec<u8> {
    let listing = wenc::list(bytes).expect("a component");
    let commands: Vec<wenc::tree::Command> =
        listing.sections.into_iter().flat_map(|of| of.items).map(Into::into).collect();
    wenc::tree::build(&commands).expect("there is memory").bytes
}

/// The rows of sections and items have what Rust reads.
fn is_section(row: SectionRow, read: &SectionReader<'_>) {
    let (range, content) = (read.range(), read.raw().data.len());
    let count = usize::try_from(read.count()).expect("few items");
    let places = [range.start, range.len(), range.end - content, count, read.id().into()];
    assert_eq!(section(row), places);
}

fn is_item(row: &ItemRow, range: Range<usize>, view: ItemView<'_>) {
    let indices = view.defined_indices().map_or((13, 0), |(of, n)| (of.number() as u32, n));
    assert_eq!((row.place..row.place + row.len, row.index), (range, 0));
    assert_eq!((row.space, row.indices), indices);
    is_described(row, &view.to_tree().into());
    let bytes = match view {
        ItemView::Module(bytes) | ItemView::Component(bytes) => Some(bytes),
        ItemView::Custom { data, .. } => Some(data),
        _ => None,
    };
    let slice = || unsafe { slice::from_raw_parts(row.bytes, row.bytes_len) };
    assert_eq!((!row.bytes.is_null()).then(slice), bytes);
}

/// The debug names of items, each once.
fn names_of_items(rows: &[ItemRow]) -> BTreeMap<(u32, u32), &'static str> {
    let mut names = BTreeMap::new();
    for row in rows {
        if let Ok(mut walk) = written(|to| unsafe { wenc_walk_names(to, row) }) {
            while let Ok((space, index, name)) = next_name(&mut walk) {
                names.entry((space, index)).or_insert(name);
            }
        }
    }
    names
}

/// The rows of a walk are what Rust reads, and so are the debug names. Returns how many items and
/// names there are.
fn is_read_as_in_rust(bytes: &[u8], sections: Sections<'_>) -> (usize, usize) {
    let expected: Vec<_> = sections.clone().items().map_while(Result::ok).collect();
    let is_whole = sections.clone().items().all(|item| item.is_ok());
    let (rows, items, status) = walked(bytes);
    assert_eq!((items.len(), status == Status::End), (expected.len(), is_whole));
    let read = sections.map(|read| read.expect("a section"));
    rows.into_iter().zip(read).for_each(|(row, read)| is_section(row, &read));
    items.iter().zip(expected).for_each(|(row, item)| is_item(row, item.range, item.view));
    let (names, all) = (names_of_items(&items), DebugNames::of(bytes));
    let of_items = all.iter().map(|(space, index, name)| ((space.number() as u32, index), name));
    let all = of_items.chain(all.component().map(|name| ((13, 0), name)));
    assert!(names.iter().map(|(of, name)| (*of, *name)).eq(all) || !is_whole, "{names:?}");
    if is_whole {
        assert_eq!(copied(bytes, &items), relisted(bytes));
    }
    (items.len(), names.len())
}

/// Each type of a recursion group has an index, in a walk and in what is read at once. The group is
/// one core type of the component that it is added to.
#[test]
fn recursion_groups_define_an_index_for_each_type() {
    // a function, a structure and an array; then a function
    let bytes = b"\0asm\x0d\0\x01\0\x03\x0f\x02\x4e\x03\x60\0\0\x5f\0\x5e\x7f\0\x60\x01\x7f\0";
    let (rows, status) = items(bytes);
    let defined = |rows: &[ItemRow]| rows.iter().map(|row| (row.space, row.indices)).collect();
    assert_eq!((defined(&rows), status), (vec![(2, 3), (2, 1)], Status::End));
    let (mut listing, mut builder) = (Held::listing(bytes), Held::builder());
    let (from, to) = (listing.at(), builder.at());
    assert_eq!(called!(wenc_count(from, 2)), Ok(4));
    let rows = [0, 1].map(|number| {
        assert_eq!(called!(wenc_copy(to, ptr::null(), from, 0, number)), Ok(number as u32));
        written(|at| unsafe { wenc_item_at(from, 0, number, at) }).expect("an item")
    });
    assert_eq!(called!(wenc_count(to, 2)), Ok(2));
    assert_eq!(rows.iter().map(|row| row.index).collect::<Vec<_>>(), [0, 3]);
    assert_eq!(defined(&rows), [(2, 3), (2, 1)]);
}

#[test]
fn components_are_read_as_in_rust() {
    let (mut items_len, mut names_len) = (0, 0);
    let components = corpus::components().into_iter().map(|(_, bytes)| bytes);
    for bytes in components.chain([COMPONENT.to_vec()]) {
        let Ok(sections) = Sections::new(&bytes) else { continue };
        let (items, names) = is_read_as_in_rust(&bytes, sections);
        (items_len, names_len) = (items_len + items, names_len + names);
    }
    assert!(items_len > 500 && names_len > 50, "{items_len} items, {names_len} names");
}
