//! Each row of the table of calls, made by the call for C: in a builder, whose bytes are the
//! table's; and, with the results of the calls for Rust, by hand, with each allocation failing in
//! turn, and read and added again.

use crate::called::{Done, call, called};
use crate::edges::{Held, named, written};
use crate::walk::is_described;
use std::ptr;
use wenc::ComponentBuilder;
use wenc::tree::{Command, InstanceTree, Space};
use wenc_calls::call::Call;
use wenc_calls::counts;
use wenc_calls::format::Model;
use wenc_calls::refuse::{calmly, refusing};
use wenc_calls::size::{Size, cases, text};
use wenc_calls::table::calls;
use wenc_capi::Status;
use wenc_capi::life::*;
use wenc_capi::listing::*;
use wenc_capi::rows::ItemRow;
use wenc_capi::sections::*;

/// The rows that C has: it has plain names only for the exports of an instance.
fn of_c() -> impl Iterator<Item = Call> {
    calls().into_iter().filter(|call| {
        let command = (call.command)(None, &Size::small(1));
        let Command::Instance { instance: InstanceTree::Exports(items), .. } = command else {
            return true;
        };
        items.iter().all(|(name, ..)| name.options.is_none())
    })
}

/// Makes the call that the row's command describes.
fn made(row: &Call, held: &mut Held, name: Option<&str>, size: &Size) -> Done {
    let command = calmly(|| (row.command)(name.map(Into::into), size));
    call(held.at(), &command)
}

/// How many items are in each space, and the component with its debug names.
type Finished = ([u32; 13], Vec<u8>);

fn counted(held: &mut Held) -> [u32; 13] {
    Space::ALL
        .map(|space| called!(wenc_count(held.at(), space.number() as u32)).expect("it is counted"))
}

fn finished(mut held: Held) -> Finished {
    let counts = counted(&mut held);
    assert_eq!(unsafe { wenc_append_names(held.at()) }, Status::Done);
    (counts, held.finished())
}

#[test]
fn each_call() {
    for row in of_c() {
        for size in cases(&row) {
            let (mut held, mut model) = (Held::builder(), Model::new());
            for name in [None, Some(text(size.index as usize % 32_768))] {
                let index = row.model(&mut model, name.as_deref(), &size);
                let made = made(&row, &mut held, name.as_deref(), &size);
                assert_eq!(made, Ok(index), "{}", row.name);
            }
            let counts = model.counts;
            model.append_names();
            assert!(finished(held) == (counts, model.finish()), "{}", row.name);
        }
    }
}

#[test]
fn each_is_refused() {
    for row in of_c() {
        // After one of these numbers of calls there is no room for the next name.
        let requests: usize = (1..7).map(|front| requests_refused(&row, front)).sum();
        assert!(requests > 0, "{}", row.name);
    }
}

/// Makes each allocation of the call fail in turn, after this number of such calls. Returns how
/// many there are.
fn requests_refused(row: &Call, front: usize) -> usize {
    let size = Size { text: text(70), ..Size::new(128, 40, 0, 50) };
    let name = Some("an-interface-with-a-long-name");
    let command = (row.command)(name.map(Into::into), &size);
    let begun = || {
        let mut held = Held::builder();
        (0..front).for_each(|_| assert!(made(row, &mut held, None, &size).is_ok()));
        held
    };
    let (before, mut undisturbed) = (finished(begun()), begun());
    let index = call(undisturbed.at(), &command);
    let after = finished(undisturbed);
    assert!(index.is_ok() && before != after, "{}", row.name);
    let are_refused = (0..40).take_while(|n| {
        let mut held = begun();
        let (answer, was_refused) = refusing(*n, || call(held.at(), &command));
        assert_eq!(answer, if was_refused { Err(Status::NoMemory) } else { index });
        assert!(finished(held) == *if was_refused { &before } else { &after }, "{}", row.name);
        was_refused
    });
    are_refused.count()
}

/// A section by hand is unchanged when a call fails, and accepts the item when it is repeated.
#[test]
fn each_is_refused_by_hand() {
    let size = Size { text: text(70), ..Size::new(128, 40, 0, 50) };
    for row in of_c().filter(|row| !is_alone(row)) {
        let command = (row.command)(None, &size);
        let are_refused = (0..40).take_while(|n| {
            let mut section = Held::section(row.id.into());
            let (answer, was_refused) = refusing(*n, || call(section.at(), &command));
            assert_eq!(answer, if was_refused { Err(Status::NoMemory) } else { Ok(0) });
            let items = if was_refused { 1 } else { 2 };
            assert_eq!(call(section.at(), &command), Ok(items - 1), "{}", row.name);
            assert!(component_of(section).finished() == built(&row, items, &size), "{}", row.name);
            was_refused
        });
        assert!(are_refused.count() > 0, "{}", row.name);
    }
}

/// Whether an item is a section of its own.
fn is_alone(row: &Call) -> bool {
    [0, 1, 4, 9].contains(&row.id)
}

/// A component of this section.
fn component_of(mut section: Held) -> Held {
    let mut component = Held::by_hand();
    assert_eq!(unsafe { wenc_section(component.at(), section.at()) }, Status::Done);
    component
}

/// A component with this item repeated, by a builder in Rust.
fn built(row: &Call, items: u32, size: &Size) -> Vec<u8> {
    let mut b = ComponentBuilder::default();
    (0..items).for_each(|_| _ = row.builds[0](&mut b, None, size).expect("there is memory"));
    b.finish()
}

/// A section by hand has its items, counts them, and takes no debug name. What is a section of its
/// own has no index.
#[test]
fn each_by_hand() {
    for row in of_c() {
        for size in cases(&row) {
            let component = if is_alone(&row) {
                let mut component = Held::by_hand();
                for _ in 0..2 {
                    assert_eq!(made(&row, &mut component, None, &size), Ok(0), "{}", row.name);
                }
                component
            } else {
                component_of(with_items(&row, &size))
            };
            let items = if !is_alone(&row) && row.own.is_some() { 3 } else { 2 };
            assert!(component.finished() == built(&row, items, &size), "{} by hand", row.name);
        }
    }
}

/// A section with two items, or with three where there is no debug name to refuse.
fn with_items(row: &Call, size: &Size) -> Held {
    let mut section = Held::section(row.id.into());
    let names = [None, None, Some("name")];
    let made = names.map(|name| made(row, &mut section, name, size));
    let (third, expected) =
        if row.own.is_some() { (Ok(2), 3) } else { (Err(Status::BadArgument), 2) };
    assert_eq!(made, [Ok(0), Ok(1), third], "{}", row.name);
    assert_eq!(written(|to| unsafe { wenc_len(section.at(), to) }), Ok(expected));
    section
}

/// Reads a component. There is no listing if an allocation fails.
fn listed(bytes: &[u8], row: &Call) -> Held {
    let mut listing = Held::nothing();
    let at = listing.at();
    let list = || unsafe { wenc_list(at, bytes.as_ptr(), bytes.len(), ptr::null_mut()) };
    let are_refused = (0..40).take_while(|n| {
        let (status, was_refused) = refusing(*n, list);
        let expected = if was_refused { Status::NoMemory } else { Status::Done };
        assert_eq!(status, expected, "{}", row.name);
        was_refused
    });
    assert!(are_refused.count() > 0, "{}", row.name);
    listing
}

/// An item is read, and added again from the listing and by its bytes, as in Rust.
#[test]
fn each_is_read_and_added_again() {
    for row in calls() {
        let size = Size::small(3);
        let name = row.own.as_ref().map_or_else(|| "name".into(), |own| own(&size));
        let mut model = Model::new();
        model.add(row.id, (row.bytes)(&size));
        let bytes = model.finish();
        let mut listing = listed(&bytes, &row);
        let in_rust = wenc::list(&bytes).expect("it is listed");
        let (mut counts, defined) = ([0; 13], row.defines(&size));
        row.space.into_iter().for_each(|space| counts[space.number()] = defined);
        assert_eq!(counted(&mut listing), counts, "{}", row.name);
        let (mut again, text) = (Held::builder(), named(&name));
        let (to, from) = (again.at(), listing.at());
        let item = written(|at| unsafe { wenc_item_at(from, 0, 0, at) });
        let item: ItemRow = item.expect("an item");
        let (at, len) = (bytes[item.place..].as_ptr(), item.len);
        let copied = called!(wenc_copy(to, &text, from, 0, 0));
        let indices = [copied, called!(wenc_item(to, row.id.into(), &text, at, len))];
        let space = row.space.map_or(13, |space| space.number() as u32);
        let places = (item.index, item.section, item.space, item.indices);
        assert_eq!(places, (0, row.id.into(), space, defined), "{}", row.name);
        is_described(&item, &(row.command)(Some(name.as_str().into()), &size));
        let (mut b, read) =
            (ComponentBuilder::default(), in_rust.sections[0].items.first().expect("an item"));
        let expected = [(); 2].map(|()| Ok(b.item(Some(&name), read).unwrap_or(0)));
        assert_eq!(indices, expected, "{}", row.name);
        let counts = counts::counts(&b);
        b.append_names();
        assert!(finished(again) == (counts, b.finish()), "{}", row.name);
    }
}
