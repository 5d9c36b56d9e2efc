//! A user's `encode` writes to a sink of its own: whatever it does there, and also if it panics or
//! fails, the bytes encoded before it are unchanged.

use crate::panics;
use std::mem::take;
use wenc::tree::ItemTree;
use wenc::*;

/// A user's value, by what it does to its sink.
#[derive(Clone, Copy)]
struct Stranger(fn(&mut Vec<u8>));

impl Encode for Stranger {
    fn encode(&self, sink: &mut Vec<u8>) {
        (self.0)(sink);
    }
}

/// A core type that no component can have.
const SHARED: GlobalType = GlobalType { val_type: ValType::I32, mutable: true, shared: true };
const UNSUPPORTED: Error = Error::Unsupported(Unsupported::SharedGlobal);

/// One that passes errors on.
struct Globals([GlobalType; 2]);

impl Encode for Globals {
    fn encode(&self, sink: &mut Vec<u8>) {
        self.try_encode(sink).expect("they are encoded");
    }

    fn try_encode(&self, sink: &mut Vec<u8>) -> Result<(), Error> {
        sink.push(7);
        self.0.try_encode(sink)
    }
}

macro_rules! sections {
    ($($name:ident)*) => {$(
        impl ComponentSection for $name {
            fn id(&self) -> u8 {
                99
            }
        }

        impl Section for $name {
            fn id(&self) -> u8 {
                77
            }
        }
    )*};
}

sections! { Stranger Globals }

/// One that is well-behaved.
const OWN: Stranger = Stranger(|sink| sink.extend([1, 5]));

/// One that removes all bytes, writes others, and panics.
const SPOILER: Stranger = Stranger(|sink| {
    sink.clear();
    sink.push(98);
    panic!("on purpose");
});

/// What a stranger does, and the bytes that it leaves.
const WRITTEN: [(Stranger, &[u8]); 11] = [
    (Stranger(|sink| sink.extend([1, 2])), &[1, 2]),
    (Stranger(Vec::clear), &[]),
    (Stranger(|sink| sink.truncate(1)), &[]),
    (Stranger(|sink| sink.iter_mut().for_each(|byte| *byte = 98)), &[]),
    (Stranger(|sink| sink.insert(0, 98)), &[98]),
    (Stranger(|sink| *sink = vec![98, 99]), &[98, 99]),
    (Stranger(|sink| drop(take(sink))), &[]),
    (Stranger(|sink| sink.push(u8::try_from(sink.len()).expect("a byte"))), &[0]),
    // strangers in it: the first writes what it likes, and the others spoil what they find
    (Stranger(|sink| [Stranger(|sink| sink.push(5)); 2].encode(sink)), &[2, 5, 5]),
    (Stranger(|sink| [Some(Stranger(|sink| *sink = vec![6]))][..].encode(sink)), &[1, 1, 6]),
    (
        Stranger(|sink| {
            sink.push(3);
            assert!(panics(|| [Stranger(|sink| sink.push(5)), SPOILER].encode(sink)));
            assert!(panics(|| Some(SPOILER).encode(sink)));
            assert!(panics(|| SPOILER.append_to_component(sink)));
            sink.push(4);
        }),
        &[3, 4],
    ),
];

/// Strangers that panic, having done something to their sinks.
const PANICKING: [Stranger; 6] = [
    SPOILER,
    Stranger(|sink| {
        sink.extend([1; 100]);
        panic!("on purpose");
    }),
    Stranger(|sink| {
        sink.truncate(1);
        panic!("on purpose");
    }),
    Stranger(|sink| {
        drop(take(sink));
        panic!("on purpose");
    }),
    // there is none
    Stranger(|sink| sink[0] = 98),
    Stranger(|sink| {
        sink.push(3);
        [SPOILER].encode(sink);
    }),
];

/// A way in which this crate calls a user's `encode`: the bytes before the stranger's, how often
/// the stranger's are encoded, and the call.
type Way = (&'static [u8], usize, fn(Stranger, &mut Vec<u8>));

const WAYS: [Way; 8] = [
    (&[99], 1, |stranger, sink| stranger.append_to_component(sink)),
    (&[77], 1, |stranger, sink| stranger.append_to(sink)),
    (&[99], 1, |stranger, sink| (&stranger as &dyn ComponentSection).append_to_component(sink)),
    (&[1], 1, |stranger, sink| [stranger].encode(sink)),
    (&[2], 2, |stranger, sink| [&stranger; 2].as_slice().encode(sink)),
    (&[1], 1, |stranger, sink| [&stranger as &dyn Encode].encode(sink)),
    (&[1], 1, |stranger, sink| Some(stranger).encode(sink)),
    (&[1, 1, 1], 1, |stranger, sink| [[Some(stranger)].as_slice()].as_slice().encode(sink)),
];

/// A component and a module with a section before the stranger and, if the stranger doesn't panic,
/// one after it.
fn around(stranger: Stranger) -> [Vec<u8>; 2] {
    let (mut component, mut module) = (Component::new(), Module::new());
    component.section(&OWN);
    module.section(&OWN);
    let panicked = [
        panics(|| component.section(&stranger).as_slice().len()),
        panics(|| module.section(&stranger).as_slice().len()),
    ];
    assert_eq!(panicked[0], panicked[1]);
    component.section(&OWN);
    module.section(&OWN);
    [component.finish(), module.finish()]
}

#[test]
fn strangers_write_behind_what_is_there() {
    for (stranger, left) in WRITTEN {
        for (front, times, encode) in WAYS {
            let mut sink = vec![7, 8];
            encode(stranger, &mut sink);
            assert_eq!(sink, [&[7, 8], front, &left.repeat(times)].concat());
        }
        let [component, module] = around(stranger);
        let sections = [&[99, 1, 5, 99], left, &[99, 1, 5]].concat();
        assert_eq!(component, [&Component::HEADER, &sections[..]].concat());
        let sections = [&[77, 1, 5, 77], left, &[77, 1, 5]].concat();
        assert_eq!(module, [&Module::HEADER, &sections[..]].concat());
    }
}

#[test]
fn strangers_that_panic_leave_what_is_there() {
    for stranger in PANICKING {
        for (_, _, encode) in WAYS {
            let mut sink = vec![7, 8];
            assert!(panics(|| encode(stranger, &mut sink)));
            assert_eq!(sink, [7, 8]);
        }
        let [component, module] = around(stranger);
        assert_eq!(component[8..], [99, 1, 5, 99, 1, 5]);
        assert_eq!(module[8..], [77, 1, 5, 77, 1, 5]);
    }
}

#[test]
fn errors_are_passed_on() {
    let plain = Globals([GlobalType { shared: false, ..SHARED }; 2]);
    let globals = Globals([plain.0[0], SHARED]);
    let values: [(&dyn Encode, Error); 3] = [
        (&&[&globals][..], UNSUPPORTED),
        (&Some(&globals), UNSUPPORTED),
        (&usize::MAX, Error::TooMany),
    ];
    // no length of 32 bits is too large
    let number = if cfg!(target_pointer_width = "32") { 2 } else { 3 };
    for (value, error) in values.into_iter().take(number) {
        let mut sink = vec![0xee];
        assert_eq!((value.try_encode(&mut sink), sink), (Err(error), vec![0xee]));
    }
    let mut sink = vec![0xee];
    [plain][..].try_encode(&mut sink).expect("they are encoded");
    assert_eq!(sink, [0xee, 1, 7, 2, 0x7f, 1, 0x7f, 1]);
}

#[test]
fn sections_fail_and_change_nothing() {
    let mut component = Component::try_new().expect("there is memory");
    component.try_section(&RawSection { id: 1, data: b"m" }).expect("it is appended");
    let (mut types, globals) = (ComponentTypeSection::new(), Globals([SHARED; 2]));
    drop(types.function());
    let items = [ItemTree::Custom { name: String::from("x"), data: [].into() }].into();
    let listed = ListedSection { id: 10, items, place: 0, ends: 0 };
    let errors = [
        component.try_section(&types).err(),
        component.try_section(&ItemSection::new(9)).err(),
        component.try_section(&listed).err(),
        component.try_section(&globals).err(),
    ];
    let wanted = [Error::Unfinished, Error::Unfinished, Error::WrongSection, UNSUPPORTED];
    assert_eq!(errors, wanted.map(Some));
    assert_eq!(component.finish()[8..], *b"\x01\x01m");

    let mut module = Module::try_new().expect("there is memory");
    assert_eq!(module.try_section(&globals).err(), Some(UNSUPPORTED));
    module.try_section(&RawSection { id: 12, data: &[0] }).expect("it is appended");
    assert_eq!(module.finish()[8..], [12, 1, 0]);
}
