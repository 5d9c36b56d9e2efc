//! Each allocation fails in turn while components are built and listed: the call fails and changes
//! nothing, and succeeds when it is repeated. Nothing ends the program. `calls` has each call that
//! adds an item.

mod cursors;
mod definitions;
mod reading;
mod views;
mod worlds;

use crate::refuse::{GRANTED, SINCE, calmly, refusing};
use reading::refused;
use wenc::*;

/// How many calls were refused.
#[derive(Default)]
struct Refusals(u32);

impl Refusals {
    /// Makes the call, and repeats it if an allocation fails.
    #[track_caller]
    fn call<T>(&mut self, mut call: impl FnMut() -> Result<T, Error>) -> T {
        match call() {
            Ok(value) => value,
            Err(error) => {
                assert_eq!(error, Error::NoMemory);
                self.0 += 1;
                call().expect("one request is refused")
            }
        }
    }

    /// Makes a call that begins a type and ends it. If it fails, the type is discarded and the call
    /// repeated.
    #[track_caller]
    fn ty(
        &mut self,
        builder: &mut ComponentBuilder,
        mut call: impl FnMut(&mut ComponentBuilder) -> Result<(), Error>,
    ) {
        self.call(|| {
            let result = call(builder);
            assert_eq!(builder.is_finished(), result.is_ok() || !builder.discard_unfinished());
            result
        });
    }
}

/// Does the work with no failing allocation, then with each allocation failing in turn. One call
/// fails then, and the result, which is returned, is always the same.
fn each_is_refused<T: PartialEq>(least: u32, work: impl Fn(&mut Refusals) -> T) -> T {
    let wanted = work(&mut Refusals::default());
    for n in 0.. {
        let mut refusals = Refusals::default();
        GRANTED.set(Some(n));
        let made = work(&mut refusals);
        let is_past = GRANTED.take().is_some();
        assert!(made == wanted, "request {n}");
        assert_eq!(refusals.0, u32::from(!is_past), "request {n}");
        if is_past {
            assert!(n >= least, "only {n} requests");
            return wanted;
        }
    }
    unreachable!("there are fewer requests")
}

const STRING: ComponentValType = ComponentValType::Primitive(PrimitiveValType::String);
pub const NAME: &str = "a name that is longer than what a first growth makes room for";

#[test]
fn a_component_is_built() {
    let bytes = each_is_refused(30, |refusals| {
        let mut builder = refusals.call(ComponentBuilder::try_new);
        for i in 0..16 {
            refusals.call(|| builder.try_import(NAME, ComponentTypeRef::Func(i)));
            refusals.call(|| builder.try_alias_export(i, NAME, ComponentExportKind::Func));
            refusals.call(|| builder.try_resource_drop(i));
            refusals.call(|| builder.try_export(NAME, ComponentExportKind::Func, i, None));
            let exports = [("m", ExportKind::Func, i), (NAME, ExportKind::Memory, 0)];
            refusals.call(|| builder.try_core_instantiate_exports(Some(NAME), exports));
            refusals.ty(&mut builder, |b| b.try_type_defined(None)?.1.try_record([(NAME, STRING)]));
            refusals.ty(&mut builder, |b| {
                let mut function = b.try_type_function(Some(NAME))?.1;
                function.try_params([(NAME, STRING), ("b", ComponentValType::Type(i))])?;
                function.try_result(Some(STRING)).map(|_| ())
            });
        }
        refusals.call(|| builder.try_append_names());
        refusals.call(|| {
            builder.try_custom_section(&CustomSection {
                name: NAME.into(),
                data: NAME.as_bytes().into(),
            })
        });
        builder.try_finish().expect("it takes no memory")
    });
    is_listed(&bytes);
    is_made_by_commands(&bytes);
    is_made_of_items(&bytes);
    has_sections_of_items(&bytes);
}

fn is_listed(bytes: &[u8]) {
    let listing = each_is_refused(30, |refusals| {
        refusals.call(|| list(bytes).map_err(refused(Error::NoMemory.into())))
    });
    let commands: Vec<_> =
        listing.sections.into_iter().flat_map(|of| of.items).map(tree::Command::from).collect();
    assert!(tree::build(&commands).expect("there is memory").bytes == bytes);
}

/// Each section of the component is made of its items, of values and of their bytes.
fn has_sections_of_items(bytes: &[u8]) {
    let listing = list(bytes).expect("it is listed");
    each_is_refused(30, |refusals| {
        let sections = Sections::new(bytes).expect("a component");
        for (section, listed) in sections.zip(&listing.sections) {
            let section = section.expect("a section");
            let (mut anew, mut kept) = (ItemSection::new(listed.id), ItemSection::new(listed.id));
            for (item, read) in listed.items.iter().zip(section.items()) {
                refusals.call(|| anew.item(item).map(drop));
                let place = read.expect("an item").range;
                refusals.call(|| kept.raw(&bytes[place.clone()]).map(drop));
            }
            calmly(|| {
                for made in [&anew, &kept] {
                    let mut component = Component::new();
                    component.section(made);
                    assert!(component.as_slice()[8..] == *section.bytes());
                }
            });
        }
    });
}

/// What these calls of a builder make one after the other, none of which leaves a type unfinished.
fn built<T>(
    values: &[T],
    call: impl Fn(&mut ComponentBuilder, &T) -> Result<Option<u32>, Error>,
) -> Vec<u8> {
    each_is_refused(30, |refusals| {
        let mut builder = refusals.call(ComponentBuilder::try_new);
        for value in values {
            refusals.call(|| {
                let result = call(&mut builder, value);
                assert!(builder.is_finished());
                result
            });
        }
        builder.try_finish().expect("it takes no memory")
    })
}

/// Each item of the component is added as it was read.
fn is_made_of_items(bytes: &[u8]) {
    let items = Sections::new(bytes).expect("it is a component").items();
    let items: Vec<_> = items.map(|item| item.expect("it is read").view).collect();
    assert!(built(&items, |builder, item| builder.try_item(Some(NAME), item)) == bytes);
}

/// Appends a section, with the allocation number `n` failing. Returns whether there was such an
/// allocation, whether the call failed, and whether there is more than the header.
macro_rules! appended {
    ($whole:ident, $n:expr) => {{
        let (mut whole, raw) = ($whole::new(), RawSection { id: 0, data: NAME.as_bytes() });
        let (result, was_refused) = refusing($n, || whole.try_section(&raw).map(|_| ()));
        assert!(result.is_ok() || result == Err(Error::NoMemory));
        (was_refused, result.is_ok(), whole.as_slice().len() > 8)
    }};
}

/// An empty value is created, or the call fails; a section is appended as a whole or not at all.
#[test]
fn components_and_modules_are_made_by_hand() {
    assert_eq!(refusing(0, Component::try_new), (Err(Error::NoMemory), true));
    assert_eq!(refusing(0, Module::try_new), (Err(Error::NoMemory), true));
    // The first request is for the id.
    let wanted = [(true, false, false), (false, true, true)];
    assert_eq!([1, 2].map(|n| appended!(Component, n)), wanted);
    assert_eq!([1, 2].map(|n| appended!(Module, n)), wanted);
}

/// Each item of the component is added by a command, and finally the whole as a nested component.
fn is_made_by_commands(bytes: &[u8]) {
    let commands = || {
        list(bytes)
            .expect("it is a component")
            .sections
            .into_iter()
            .flat_map(|of| of.items)
            .map(tree::Command::from)
            .collect()
    };
    let nested = tree::Command::Component { debug_name: None, commands: commands() };
    let commands: Vec<_> = commands().into_iter().chain([nested]).collect();
    let made = built(&commands, |builder, command| builder.command(command));
    let nested = NestedComponentBytes(bytes);
    let mut expected = bytes.to_vec();
    nested.append_to_component(&mut expected);
    assert!(made == expected);
}

/// Room for a section's id is reserved separately. If only that fails, no other allocation does.
#[test]
fn a_section_comes_without_room_for_its_id() {
    let mut imports = ComponentImportSection::new();
    imports.import(NAME, ComponentTypeRef::Func(0));
    let wanted = Component::new().section(&imports).as_slice().to_vec();
    let mut component = Component::new();
    GRANTED.set(Some(0));
    component.section(&imports);
    assert_eq!(GRANTED.take(), None, "no request was refused");
    assert_eq!(component.as_slice(), wanted);

    let mut module = Module::new();
    let raw = RawSection { id: SectionId::Custom.into(), data: NAME.as_bytes() };
    let wanted = Module::new().section(&raw).as_slice().to_vec();
    GRANTED.set(Some(0));
    module.section(&raw);
    assert_eq!(GRANTED.take(), None, "no request was refused");
    assert_eq!(module.as_slice(), wanted);
}

/// Sections and values of this crate are written to the sink itself: if that has room, nothing is
/// allocated.
#[test]
fn own_sections_are_written_in_place() {
    let (module, nested) = (Module::new(), Component::new());
    let import = b"\0asm\x0d\0\x01\0\x0a\x06\x01\0\x01f\x01\0";
    let read = Sections::new(import).expect("a component").next().expect("one").expect("a section");
    let mut items = ItemSection::new(read.id());
    items.raw(&import[11..]).expect("there is memory");
    let sections: [&dyn ComponentSection; 19] = [
        &CanonicalFunctionSection::new(),
        &ComponentAliasSection::new(),
        &ComponentExportSection::new(),
        &ComponentImportSection::new(),
        &ComponentInstanceSection::new(),
        &ComponentNameSection::new(),
        &ComponentStartSection { function_index: 0, args: [1], results: 0 },
        &ComponentTypeSection::new(),
        &CoreTypeSection::new(),
        &CustomSection { name: NAME.into(), data: b"x".as_slice().into() },
        &InstanceSection::new(),
        &ModuleSection(&module),
        &NestedComponentBytes(nested.as_slice()),
        &NestedComponentSection(&nested),
        &ProducersSection::new(),
        &RawCustomSection(b"\x02\x01x"),
        &RawSection { id: 0, data: b"\x01x" },
        &read,
        &items,
    ];
    let mut sink = Vec::with_capacity(1000);
    for (at, section) in sections.into_iter().enumerate() {
        GRANTED.set(Some(9));
        section.append_to_component(&mut sink);
        assert_eq!(GRANTED.take(), Some(9), "section {at}");
    }
    let (texts, numbers) = (["a", "b"], [Some([1_usize, 2].as_slice()), None]);
    GRANTED.set(Some(9));
    texts.as_slice().encode(&mut sink);
    [&numbers.as_slice(); 2].as_slice().encode(&mut sink);
    [STRING].as_slice().encode(&mut sink);
    assert_eq!(GRANTED.take(), Some(9));
    let list = [2, 1, 2, 1, 2, 0];
    assert!(sink.ends_with(&[&[2, 1, b'a', 1, b'b', 2][..], &list, &list, &[1, 0x73]].concat()));
}

/// A command that fails adds nothing, and the commands after it still run.
#[test]
fn commands_are_run() {
    let import = |of| tree::Command::Import { name: NAME.into(), ty: ComponentTypeRef::Func(of) };
    let commands: Vec<_> = (0..20).map(import).collect();
    each_is_refused(5, |refusals| match tree::build(&commands) {
        Err(error) => {
            assert_eq!(error, Error::NoMemory);
            refusals.0 += 1;
        }
        Ok(built) => calmly(|| {
            let refused = built.answers.iter().position(Result::is_err);
            refusals.0 += u32::from(refused.is_some());
            let mut wanted = ComponentBuilder::default();
            for (at, answer) in built.answers.into_iter().enumerate() {
                if refused == Some(at) {
                    assert_eq!(answer, Err(Error::NoMemory));
                } else {
                    let index = wanted.import(NAME, ComponentTypeRef::Func(at as u32));
                    assert_eq!(answer, Ok(Some(index)));
                }
            }
            assert_eq!(built.bytes, wanted.finish());
        }),
    });
}
