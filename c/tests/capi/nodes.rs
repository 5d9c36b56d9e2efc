//! The fields of items, beside the nodes that Rust has of them.

use super::causes::components;
use super::vectors;
use super::walk::{begun, items, next_item, next_section, text};
use std::collections::{BTreeMap, BTreeSet};
use std::ffi::c_void;
use std::{mem, ptr};
use wenc::tree::{Child, Node, Scope, Space};
use wenc::view::ItemView;
use wenc::{Producer, ProducersReader, Sections};
use wenc_calls::hex;
use wenc_calls::refuse::requested;
use wenc_calls::sections::ROWS;
use wenc_capi::Status;
use wenc_capi::arguments::Flag;
use wenc_capi::nodes::*;
use wenc_capi::rows::ItemRow;
use wenc_capi::walk::*;

/// What is compared of a node: its depth, its name, its kind and number, what its text is, and the
/// numbers of an index.
#[derive(Clone, Debug, PartialEq)]
struct Seen {
    depth: u32,
    name: Option<String>,
    kind: u32,
    number: u64,
    text: Option<Vec<u8>>,
    of: [u32; 3],
}

/// The number of a node's kind, and its text.
fn kind<'a>(node: Node<'a>) -> (u32, Option<&'a [u8]>) {
    match node {
        Node::Absent => (0, None),
        Node::Present(_) => (1, None),
        Node::Number(_) => (2, None),
        Node::Flag(_) => (3, None),
        Node::Text(text) => (4, Some(text.as_bytes())),
        Node::Bytes(bytes) => (5, Some(bytes)),
        Node::Index { .. } => (6, None),
        Node::List(_) => (7, None),
        Node::Tuple(_) => (8, None),
        Node::Record(name, _) => (9, Some(name.as_bytes())),
        Node::Word(name) => (10, Some(name.as_bytes())),
        Node::Variant(name, _) => (11, Some(name.as_bytes())),
        Node::Struct(name, _) => (12, Some(name.as_bytes())),
        Node::OutOfRange { .. } => panic!("the scopes aren't known"),
    }
}

/// The space of an index, and what that belongs to.
fn index_of(node: Node) -> [u32; 3] {
    match node {
        Node::Index { space, scope: Scope::Component(out), .. } => [space.number() as u32, 0, out],
        Node::Index { space, scope: Scope::Type(depth), .. } => [space.number() as u32, 1, depth],
        _ => [13, 0, 0],
    }
}

/// The nodes that C expects for a value of Rust and for those within it.
fn expect(node: Node, depth: u32, name: Option<&str>, found: &mut Vec<Seen>) {
    let (own, (kind, text)) = (found.len(), kind(node));
    let (name, text) = (name.map(String::from), text.map(<[u8]>::to_vec));
    found.push(Seen { depth, name, kind, number: 0, text, of: index_of(node) });
    let mut within = |name: Option<&str>, child: Child| {
        expect(child.node(), depth + 1, name, found);
    };
    match node {
        Node::Present(child) | Node::Variant(_, child) => within(None, child),
        Node::List(list) => list.for_each(|child| within(None, child)),
        Node::Tuple(fields) | Node::Record(_, fields) | Node::Struct(_, fields) => {
            fields.iter().for_each(|(name, child)| within(Some(name), child));
        }
        _ => {}
    }
    found[own].number = match node {
        Node::Number(number) => number,
        Node::Flag(flag) => flag.into(),
        Node::Index { index, .. } => index.into(),
        _ => found[own..].iter().filter(|seen| seen.depth == depth + 1).count() as u64,
    };
}

/// Adds the tools of a producers section, which Rust reads by themselves.
fn expect_tools(item: &ItemView, found: &mut Vec<Seen>) -> usize {
    let &ItemView::Custom { name, data } = item else { return 0 };
    if name != ProducersReader::SECTION {
        return 0;
    }
    let tools: Vec<Producer> = ProducersReader::new(data).map_while(Result::ok).collect();
    found.last_mut().expect("its data").number = tools.len() as u64;
    for tool in &tools {
        let record = |depth, name: Option<&str>, kind, number, text: &str| {
            let (name, text) = (name.map(String::from), Some(text.as_bytes().to_vec()));
            Seen { depth, name, kind, number, text, of: [13, 0, 0] }
        };
        found.push(record(2, None, 9, 3, "Producer"));
        for (part, text) in [("field", tool.field), ("name", tool.name), ("version", tool.version)]
        {
            found.push(record(3, Some(part), 4, 0, text));
        }
    }
    tools.len()
}

/// Keeps the nodes that it is called with, up to a number.
struct Kept {
    rows: Vec<NodeRow>,
    most: usize,
}

unsafe extern "C" fn keep(context: *mut c_void, node: *const NodeRow) -> Flag {
    let (kept, node) = unsafe { (&mut *context.cast::<Kept>(), *node) };
    kept.rows.push(node);
    Flag((kept.rows.len() < kept.most).into())
}

/// The nodes that C is called with, up to a number.
fn nodes(walk: &Walk, item: &ItemRow, most: usize) -> (Vec<NodeRow>, Status) {
    let mut kept = Kept { rows: Vec::new(), most };
    let status = unsafe { wenc_walk_nodes(walk, item, Some(keep), (&raw mut kept).cast()) };
    (kept.rows, status)
}

fn seen(row: &NodeRow) -> Seen {
    let bytes = |text: wenc_capi::arguments::Text| {
        let is_there = !text.at.is_null();
        is_there.then(|| unsafe { std::slice::from_raw_parts(text.at, text.len) }.to_vec())
    };
    Seen {
        depth: row.depth,
        name: text(row.name).map(String::from),
        kind: row.kind,
        number: row.number,
        text: bytes(row.text),
        of: [row.space, row.scope, row.out],
    }
}

/// The byte offsets of nodes: the item has its own, a text or bytes are there, and the members of a
/// list follow each other in their item. Returns how many members there are.
fn are_in_place(component: &[u8], item: &ItemRow, rows: &[NodeRow]) -> usize {
    assert_eq!((rows[0].place, rows[0].len), (item.place, item.len));
    // the kind of each value around, and where the last member of it ends
    let (mut around, mut members) = (vec![(rows[0].kind, None)], 0);
    for row in &rows[1..] {
        around.truncate(row.depth as usize);
        let range = row.place..row.place + row.len;
        let (kind, end) = around.last_mut().expect("the item");
        match (row.kind, *kind) {
            (4 | 5, _) => {
                assert_eq!(&component[range.clone()], seen(row).text.expect("a text"));
            }
            (_, 7) => {
                assert!(!range.is_empty() && end.is_none_or(|end| end == range.start));
                *end = Some(range.end);
                members += 1;
            }
            _ => assert_eq!(range, 0..0),
        }
        let is_within = item.place <= range.start && range.end <= item.place + item.len;
        assert!(is_within || range == (0..0));
        around.push((row.kind, None));
    }
    members
}

/// The worked components, and those that scripts of upstream's tests make.
fn worked() -> impl Iterator<Item = Vec<u8>> {
    let rows = ROWS.iter().map(|row| hex::bytes(&row.sections.replace(char::is_whitespace, "")));
    let rows = rows.map(|sections| [b"\0asm\x0d\0\x01\0", &sections[..]].concat());
    rows.chain(vectors::all().filter(|vector| vector.status == 0).map(|vector| {
        let out = std::str::from_utf8(vector.out).expect("digits");
        hex::bytes(out.lines().last().expect("a component"))
    }))
}

#[test]
fn nodes_are_those_of_rust() {
    let (mut kinds, mut scopes) = (BTreeMap::new(), BTreeSet::new());
    let (mut read, mut members, mut tools) = (0, 0, 0);
    for component in components().into_iter().chain(worked()) {
        let views = Sections::new(&component).expect("a component").items();
        let views: Vec<ItemView> = views.map_while(|item| Some(item.ok()?.view)).collect();
        let (rows, _) = items(&component);
        // a walk continues after what it can't read
        assert!(rows.len() >= views.len());
        for (item, view) in rows.iter().zip(&views) {
            let (rows, status) = nodes(&begun(&component), item, usize::MAX);
            let mut expected = Vec::new();
            expect(view.node(), 0, None, &mut expected);
            tools += expect_tools(view, &mut expected);
            assert_eq!(status, Status::Done);
            assert_eq!(rows.iter().map(seen).collect::<Vec<_>>(), expected);
            members += are_in_place(&component, item, &rows);
            for row in &rows {
                *kinds.entry(row.kind).or_insert(0_usize) += 1;
                if row.kind == 6 {
                    scopes.insert((row.space, row.scope));
                }
            }
            read += 1;
        }
    }
    assert_eq!(kinds.keys().copied().collect::<Vec<u32>>(), (0..13).collect::<Vec<_>>());
    let in_types = scopes.iter().filter(|(_, scope)| *scope == 1).count();
    assert!(scopes.len() > Space::ALL.len() && in_types > 3, "{scopes:?}");
    assert!(read > 3_000 && members > 1_500 && tools > 30, "{read}, {members}, {tools}");
    assert!(kinds.values().all(|count| *count > 30), "{kinds:?}");
}

/// Members of lists have the bytes that Rust reads them from.
#[test]
fn members_have_their_bytes() {
    // two imports of functions in a component type
    let component = b"\0asm\x0d\0\x01\0\x07\x0f\x01\x41\x02\x03\0\x01a\x01\0\x03\0\x01b\x01\x05";
    let (rows, _) = items(component);
    let (found, status) = nodes(&begun(component), &rows[0], usize::MAX);
    assert_eq!(status, Status::Done);
    let members = found.iter().filter(|row| row.len > 0 && row.kind != 4);
    let places: Vec<_> = members.map(|row| (row.place, row.len)).collect();
    assert_eq!(places, [(11, 14), (13, 6), (19, 6)]);
    let texts = found.iter().filter(|row| row.kind == 4).map(|row| (row.place, row.len));
    assert_eq!(texts.collect::<Vec<_>>(), [(16, 1), (22, 1)]);
}

/// Nothing is allocated, and the function ends the walk.
#[test]
fn a_function_ends_the_walk() {
    let component = b"\0asm\x0d\0\x01\0\x07\x08\x01\x40\x01\x01n\x79\x01\0";
    let (rows, _) = items(component);
    let walk = begun(component);
    let mut kept = Kept { rows: Vec::with_capacity(100), most: 100 };
    let (status, requested) = requested(|| unsafe {
        wenc_walk_nodes(&walk, &rows[0], Some(keep), (&raw mut kept).cast())
    });
    assert_eq!((status, requested), (Status::Done, 0));
    let all = kept.rows.len();
    assert_eq!(all, 9);
    for most in 1..=all {
        let (rows, status) = nodes(&walk, &rows[0], most);
        assert_eq!((rows.len(), status), (most, Status::Done));
    }
}

/// What a function that walks on itself is called with.
struct Again {
    walk: Walk,
    item: ItemRow,
    counts: Vec<usize>,
}

unsafe extern "C" fn again(context: *mut c_void, _: *const NodeRow) -> Flag {
    let Again { walk, item, counts } = unsafe { &mut *context.cast::<Again>() };
    counts.push(nodes(walk, item, usize::MAX).0.len());
    // the walk goes on, and the item is still there
    let _ = next_item(walk);
    let _ = next_section(walk);
    Flag(1)
}

#[test]
fn a_function_may_walk() {
    let component = b"\0asm\x0d\0\x01\0\x07\x05\x01\x40\0\x01\0\x0a\x06\x01\0\x01f\x01\0";
    let mut walk = begun(component);
    next_section(&mut walk).expect("a section");
    let item = next_item(&mut walk).expect("an item");
    let mut own = Again { walk, item, counts: Vec::new() };
    let context = (&raw mut own).cast();
    assert_eq!(unsafe { wenc_walk_nodes(&walk, &item, Some(again), context) }, Status::Done);
    assert_eq!(own.counts, [5; 5]);
    assert_eq!(next_section(&mut own.walk).err(), Some(Status::End));
}

/// A walk without an item, one of another component or out of it, and NULL.
#[test]
fn bad_arguments_of_nodes() {
    let component = b"\0asm\x0d\0\x01\0\x07\x05\x01\x40\0\x01\0\x0a\x06\x01\0\x01f\x01\0";
    let status = |walk: &Walk, item: &ItemRow| {
        let (rows, status) = nodes(walk, item, usize::MAX);
        assert_eq!(rows.is_empty(), status != Status::Done);
        status
    };
    let (none, nothing): (Walk, ItemRow) = unsafe { (mem::zeroed(), mem::zeroed()) };
    let mut walk = begun(component);
    // in every order: before a section, in it, before an item, and after the last
    assert_eq!(status(&walk, &nothing), Status::Malformed);
    assert_eq!(next_item(&mut walk).err(), Some(Status::End));
    next_section(&mut walk).expect("a section");
    assert_eq!(status(&walk, &nothing), Status::Malformed);
    let ty = next_item(&mut walk).expect("an item");
    assert_eq!(status(&walk, &ty), Status::Done);
    assert_eq!(next_item(&mut walk).err(), Some(Status::End));
    next_section(&mut walk).expect("a section");
    let import = next_item(&mut walk).expect("an item");
    for walk in [walk, begun(component)] {
        assert_eq!([status(&walk, &ty), status(&walk, &import)], [Status::Done; 2]);
        let moved = |place, len, section| status(&walk, &ItemRow { place, len, section, ..ty });
        assert_eq!(moved(ty.place, ty.len, 10), Status::Malformed);
        assert_eq!(moved(ty.place, ty.len - 1, 7), Status::Malformed);
        assert_eq!(moved(ty.place, ty.len + 1, 7), Status::Malformed);
        assert_eq!(moved(ty.place, 0, 7), Status::Malformed);
        for (place, len) in [(24, 0), (23, 1), (0, 24), (usize::MAX, 1), (1, usize::MAX)] {
            assert_eq!(moved(place, len, 7), Status::BadArgument);
        }
        for section in [12, 13, 256, u32::MAX] {
            assert_eq!(moved(ty.place, ty.len, section), Status::BadArgument);
        }
    }
    assert_eq!(status(&none, &ty), Status::BadArgument);
    assert_eq!(status(&Walk { len: usize::MAX, ..walk }, &ty), Status::BadArgument);
    no_pointers_to_nodes(&walk, &ty);
}

fn no_pointers_to_nodes(walk: &Walk, item: &ItemRow) {
    let (no_walk, no_item, none) = (ptr::null(), ptr::null(), ptr::null_mut());
    let visit: Option<NodeVisit> = Some(keep);
    let statuses = unsafe {
        [
            wenc_walk_nodes(no_walk, item, visit, none),
            wenc_walk_nodes(walk, no_item, visit, none),
            wenc_walk_nodes(walk, item, None, none),
        ]
    };
    assert_eq!(statuses, [Status::BadArgument; 3]);
}

/// Types in `count` others.
fn nested(count: usize) -> Vec<u8> {
    let ty = [&b"\x01"[..], &b"\x41\x01\x01".repeat(count), b"\x41\0"].concat();
    let size = [ty.len() as u8 | 0x80, (ty.len() >> 7) as u8];
    [b"\0asm\x0d\0\x01\0\x07", &size[..], &ty].concat()
}

/// The deepest types that can be read fit on a small stack, and one in a hundred others isn't read.
#[cfg_attr(target_family = "wasm", ignore = "it has no threads")]
#[test]
fn types_nest_up_to_a_limit() {
    let stack = if cfg!(debug_assertions) { 1 << 21 } else { 1 << 18 };
    let work = || {
        let component = nested(99);
        let (rows, _) = items(&component);
        let (found, status) = nodes(&begun(&component), &rows[0], usize::MAX);
        assert_eq!(status, Status::Done);
        // a type of a component in each, and its list
        assert_eq!(found.iter().filter(|row| row.kind == 7).count(), 100);
        let deep = nested(100);
        let item = ItemRow { place: 11 + 1, len: deep.len() - 12, section: 7, ..rows[0] };
        let (found, status) = nodes(&begun(&deep), &item, usize::MAX);
        assert_eq!((found.len(), status), (0, Status::TooDeep));
    };
    let thread = std::thread::Builder::new().stack_size(stack).spawn(work);
    thread.expect("it begins").join().expect("it ends");
}

/// Tools before one that can't be read are visited.
#[test]
fn producers_up_to_a_fault() {
    let section = b"\0asm\x0d\0\x01\0\0\x1f\x09producers\x01\x08language\x02\x04Rust\x042024";
    let (rows, _) = items(section);
    let (found, status) = nodes(&begun(section), &rows[0], usize::MAX);
    let rows: Vec<_> = found.iter().map(|row| (row.kind, row.number)).collect();
    assert_eq!(rows, [(12, 2), (4, 0), (5, 1), (9, 3), (4, 0), (4, 0), (4, 0)]);
    assert_eq!(status, Status::Malformed);
    let view = Sections::new(section).expect("a component").items().next();
    assert!(matches!(view, Some(Ok(item)) if matches!(item.view, ItemView::Custom { .. })));
}

/// In quadratic time, by a walk from the start to each member, this wouldn't end within the time
/// limit of the gate.
#[test]
fn nodes_are_visited_in_linear_time() {
    unsafe extern "C" fn count(context: *mut c_void, _: *const NodeRow) -> Flag {
        unsafe { *context.cast::<usize>() += 1 };
        Flag(1)
    }
    // a tuple of a million types, in fifty types
    let types = b"\x79".repeat(1_000_000);
    let tuple = [&b"\x6f\xc0\x84\x3d"[..], &types].concat();
    let item = [&b"\x41\x01\x01".repeat(50), &tuple[..]].concat();
    let item_row = ItemRow { place: 8, len: item.len(), section: 7, ..unsafe { mem::zeroed() } };
    let component = [b"\0asm\x0d\0\x01\0", &item[..]].concat();
    let (walk, mut counted) = (begun(&component), 0_usize);
    let context = (&raw mut counted).cast();
    let status = unsafe { wenc_walk_nodes(&walk, &item_row, Some(count), context) };
    assert_eq!((status, counted > 2_000_000), (Status::Done, true));
}
