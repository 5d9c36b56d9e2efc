//! Builders as values: lengths that are too large, threads, unfinished items.

use wenc::*;

const BYTE: ComponentTypeRef =
    ComponentTypeRef::Value(ComponentValType::Primitive(PrimitiveValType::U8));

fn builder() -> ComponentBuilder {
    ComponentBuilder::default()
}

/// Pages of zeros that are never read take no memory.
#[cfg(target_pointer_width = "64")]
#[test]
fn what_is_too_large_is_refused() {
    let large = vec![0; 1 << 32];
    let mut b = builder();
    assert_eq!(b.try_core_module_raw(None, &large), Err(Error::TooLarge));
    assert_eq!(b.try_component_raw(None, &large), Err(Error::TooLarge));
    assert_eq!((b.core_module_count(), b.component_count()), (0, 0));
    let mut module = ItemSection::new(ComponentSectionId::CoreModule);
    assert_eq!(module.raw(&large).err(), Some(Error::TooLarge));
    assert!(module.is_empty());
    assert_eq!(b.finish(), Component::HEADER);
}

/// A sum of three lengths, two of which may be of bytes that overlap, is longer than an address of
/// 32 bits reaches. Here it is 4 below, 0, 4 and 8 above 2^32.
#[cfg(target_pointer_width = "32")]
#[test]
fn a_custom_section_too_large_for_32_bits_is_refused() {
    let zeros = vec![0; (1 << 31) - 1];
    let name = std::str::from_utf8(&zeros).expect("zeros are a text");
    let refused = [
        ((1 << 31) - 13, Error::NoMemory),
        ((1 << 31) - 9, Error::NoMemory),
        ((1 << 31) - 5, Error::NoMemory),
        ((1 << 31) - 1, Error::TooLarge),
    ];
    for (len, error) in refused {
        let section = CustomSection { name: name.into(), data: zeros[..len].into() };
        let mut sink = vec![0xee];
        assert!(crate::panics(|| section.encode(&mut sink)), "{len}");
        assert_eq!(sink, [0xee]);
        let mut component = Component::new();
        assert!(crate::panics(|| component.section(&section).as_slice().len()), "{len}");
        assert_eq!(component.as_slice(), Component::new().as_slice());
        let mut b = builder();
        assert_eq!(b.try_custom_section(&section), Err(error), "{len}");
        assert_eq!(b.finish(), Component::HEADER);
    }
}

#[test]
#[should_panic(expected = "too many")]
fn under_upstreams_name_a_refused_call_panics() {
    let mut b = builder();
    b.start(0, vec![], u32::MAX);
    b.import("v", BYTE);
}

#[test]
#[should_panic(expected = "unfinished")]
fn what_is_unfinished_is_not_finished() {
    let mut b = builder();
    let _ = b.ty(None);
    b.finish();
}

#[test]
fn what_is_unfinished_is_printed_and_not_nested() {
    let (mut b, mut outer) = (builder(), builder());
    b.task_cancel();
    let _ = b.type_defined(Some("t"));
    let printed = "ComponentBuilder { is_finished: false, core_func_count: 1, type_count: 1, .. }";
    assert_eq!(format!("{b:?}"), printed);
    assert_eq!(outer.try_component(None, b), Err(Error::Unfinished));
    assert_eq!(format!("{outer:?}"), "ComponentBuilder { is_finished: true, .. }");
    assert_eq!(outer.component(None, builder()), 0);
    assert_eq!(outer.finish()[8..], *b"\x04\x08\0asm\x0d\0\x01\0");
}

#[cfg(not(target_family = "wasm"))]
mod threads {
    use super::*;
    use std::thread;

    /// A component with this many functions.
    fn functions(number: u32) -> ComponentBuilder {
        let mut b = builder();
        for i in 0..number {
            assert_eq!(b.import(format!("f{i}"), ComponentTypeRef::Func(i)), i);
        }
        b
    }

    #[test]
    fn two_builders_work_on_two_threads() {
        let alone = functions(20_000).finish();
        let threads = [(); 2].map(|()| thread::spawn(|| functions(20_000).finish()));
        for thread in threads {
            assert!(thread.join().unwrap() == alone);
        }
    }

    #[test]
    fn a_builder_moves_to_another_thread() {
        let mut b = functions(2);
        let bytes = thread::spawn(move || {
            assert_eq!(b.import("f2", ComponentTypeRef::Func(2)), 2);
            b.finish()
        });
        assert_eq!(bytes.join().unwrap(), functions(3).finish());
    }

    #[test]
    fn two_threads_ask_one_builder() {
        let b = functions(3);
        let counts = thread::scope(|scope| {
            let asked = [(); 2].map(|()| scope.spawn(|| b.func_count()));
            asked.map(|thread| thread.join().unwrap())
        });
        assert_eq!(counts, [3, 3]);
    }
}

#[test]
fn errors_tell_what_they_are() {
    let errors: [(Error, &str); 16] = [
        (Error::NoMemory, "no memory"),
        (Error::TooMany, "too many"),
        (Error::TooLarge, "too large"),
        (
            Error::Unfinished,
            "unfinished: a type or an item was begun and never ended; call the last method of its \
             encoder (of a function's type `result`), or `discard_unfinished`",
        ),
        (Error::Unsupported(Unsupported::SharedType), "not supported: a shared composite type"),
        (Error::Unsupported(Unsupported::SharedHeapType), "not supported: a shared heap type"),
        (Error::Unsupported(Unsupported::SharedTable), "not supported: a shared table"),
        (Error::Unsupported(Unsupported::SharedGlobal), "not supported: a shared global"),
        (Error::Unsupported(Unsupported::ExactReference), "not supported: an exact reference"),
        (Error::Unsupported(Unsupported::ExactFunction), "not supported: an exact function"),
        (Error::Unsupported(Unsupported::Continuation), "not supported: a continuation"),
        (Error::Unsupported(Unsupported::Descriptor), "not supported: a descriptor"),
        (
            Error::Unsupported(Unsupported::Describes),
            "not supported: a type that describes another",
        ),
        (Error::Unsupported(Unsupported::PageSize), "not supported: a page size"),
        (Error::WrongSection, "item of another section"),
        (
            Error::OutOfTurn,
            "out of turn: a function's type is encoded by `async_` or not, `params` once, then \
             `result` once",
        ),
    ];
    for (error, text) in errors {
        let error: Box<dyn std::error::Error + Send + Sync> = error.into();
        assert_eq!(error.to_string(), text);
    }
}
