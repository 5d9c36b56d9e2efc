//! What indices mean: each kind of alias in each scope, what isn't the same as another, and what
//! can't be followed.

use crate::{component, nested, section};
use wenc::scope::{Definition, Definitions, Instances, Meaning, Scope, ScopeFault};
use wenc::tree::Space;
use wenc::view::{InstanceView, ItemView, ModuleDeclView, TypeView};
use wenc::{Cause, ComponentSectionId, ComponentTypeRef, Part};

fn read(component: Vec<u8>) -> Instances<'static, 'static> {
    let definitions = Definitions::new(component.leak(), 100).expect("it is read");
    Box::leak(Box::new(definitions)).instances()
}

/// The byte offset of what an index is in the end.
fn resolved(scope: Scope<'_, '_>, space: Space, index: u32) -> Result<usize, ScopeFault> {
    scope.resolve(space, index).map(Definition::place)
}

/// The scope of a component or of a type.
fn inner<'s, 'a>(scope: Scope<'s, 'a>, space: Space, index: u32) -> Scope<'s, 'a> {
    scope.get(space, index).expect("it is there").inner().expect("it has a scope")
}

/// A section of one byte's count of these.
fn many(id: u8, members: &[&[u8]]) -> Vec<u8> {
    let count = u8::try_from(members.len()).expect("they are few");
    section(id, &[&[count], &members.concat()[..]].concat())
}

/// Calls a function with a component that has these types, and in one of its scopes an import or an
/// export of an instance of type 0, and these aliases; and with that scope: that of the component,
/// of one in it, of a component type and of an instance type. The last two have a type before.
fn in_each_scope(types: &[&[u8]], aliases: &[&[u8]], check: impl Fn(Scope<'_, '_>)) {
    let instance = section(10, b"\x01\0\x01x\x05\0");
    let all = [many(7, types), instance.clone(), many(6, aliases)].concat();
    check(read(component(&all)).component());
    let outer = many(6, &[b"\x03\x02\x01\0"]);
    let within = nested(&[outer, instance, many(6, aliases)].concat());
    let all = component(&[many(7, types), within].concat());
    check(inner(read(all).component(), Space::Components, 0));
    for kind in [0x41, 0x42] {
        let count = u8::try_from(aliases.len() + 2).expect("they are few");
        let front = [&[kind, count][..], b"\x02\x03\x02\x01\0\x04\0\x01x\x05\0"].concat();
        let declared = aliases.iter().flat_map(|of| [b"\x02", *of].concat());
        let ty: Vec<u8> = front.into_iter().chain(declared).collect();
        let all = read(component(&many(7, &[types, &[&ty]].concat())));
        let last = u32::try_from(types.len()).expect("they are few");
        check(inner(all.component(), Space::Types, last));
    }
}

/// A type of instances that export each kind of item.
const EACH_KIND: &[u8] = b"\x42\x0a\0\x50\0\x01\x40\0\x01\0\x01\x41\0\x01\x42\0\
    \x04\0\x01m\0\x11\0\x04\0\x01f\x01\0\x04\0\x01v\x02\x79\x04\0\x01t\x03\x01\
    \x04\0\x01i\x05\x02\x04\0\x01c\x04\x01";

/// Aliases of these, their space, and where the exports are declared, if the type is at 11.
const OF_EACH_KIND: [(&[u8], Space, usize); 6] = [
    (b"\0\x11\0\0\x01m", Space::CoreModules, 27),
    (b"\x01\0\0\x01f", Space::Funcs, 34),
    (b"\x02\0\0\x01v", Space::Values, 40),
    (b"\x03\0\0\x01t", Space::Types, 46),
    (b"\x05\0\0\x01i", Space::Instances, 52),
    (b"\x04\0\0\x01c", Space::Components, 58),
];

#[test]
fn exports_of_instances() {
    let aliases = OF_EACH_KIND.map(|(alias, ..)| alias);
    in_each_scope(&[EACH_KIND], &aliases, |scope| {
        for (_, space, place) in OF_EACH_KIND {
            // type 0 is that of instance 0, or an alias of it
            let index = u32::from(matches!(space, Space::Types | Space::Instances));
            assert_eq!(resolved(scope, space, index), Ok(place), "{space:?}");
            let alias = scope.get(space, index).expect("it is there");
            let Meaning::Item(ItemView::Alias(_)) = alias.meaning() else { panic!("{alias:?}") };
            let target = alias.target().expect("it is followed").expect("it is the same");
            assert_eq!(target, alias.resolve().expect("it is followed"));
            assert_eq!(target.space(), Some(space));
        }
        let instance = scope.resolve(Space::Instances, 1).expect("it is declared");
        let Ok(Some(ty)) = instance.ty() else { panic!("it has a type") };
        assert_eq!(ty.place(), 24);
        assert!(matches!(ty.meaning(), Meaning::Item(ItemView::Type(TypeView::Instance(_)))));
        let exports = instance.exports().expect("it is followed").expect("it has some");
        assert_eq!((exports.place(), exports.definitions().count()), (24, 0));
    });
}

/// A core type, a module of its type, a type and a component, and where they are.
fn outermost() -> Vec<u8> {
    let module = section(10, b"\x01\0\x01m\0\x11\0");
    [many(3, &[b"\x50\0"]), module, many(7, &[b"\x79"]), nested(b"")].concat()
}

/// Their aliases from so many scopes further in.
fn outer_aliases(count: u8) -> [(Vec<u8>, Space, usize); 4] {
    [
        (vec![0, 0x11, 2, count, 0], Space::CoreModules, 16),
        (vec![0, 0x10, 2, count, 0], Space::CoreTypes, 11),
        (vec![3, 2, count, 0], Space::Types, 25),
        (vec![4, 2, count, 0], Space::Components, 28),
    ]
}

/// Expects that the scope has these aliases, and what they are of.
fn has_aliases(scope: Scope<'_, '_>, count: u8) {
    for (_, space, place) in outer_aliases(count) {
        let index = u32::try_from(scope.count(space).unwrap()).expect("they are few") - 1;
        assert_eq!(resolved(scope, space, index), Ok(place), "{space:?}");
    }
}

#[test]
fn outer_items() {
    let aliases = |count| outer_aliases(count).map(|(alias, ..)| alias);
    let items = |count| many(6, &aliases(count).each_ref().map(Vec::as_slice));
    // of the component itself, of the one around it, and of the one around that
    let two = nested(&nested(&items(2)));
    let all = read(component(&[outermost(), items(0), nested(&items(1)), two].concat()));
    // components 0 and 1 are the item and its alias, before those with aliases
    has_aliases(all.component().get(Space::Components, 2).unwrap().scope(), 0);
    has_aliases(inner(all.component(), Space::Components, 2), 1);
    let middle = inner(all.component(), Space::Components, 3);
    let innermost = inner(middle, Space::Components, 0);
    has_aliases(innermost, 2);
    assert_eq!(innermost.outer().unwrap().place(), middle.place());
    assert!(all.component().outer().is_none());

    for kinds in [[0x41, 0x41], [0x41, 0x42], [0x42, 0x41], [0x42, 0x42]] {
        let declared = |count| {
            aliases(count).iter().flat_map(|of| [b"\x02", &of[..]].concat()).collect::<Vec<u8>>()
        };
        let innermost = [&[1, kinds[1], 4][..], &declared(2)].concat();
        let ty = [&[kinds[0], 5][..], &declared(1), &innermost].concat();
        let all = read(component(&[outermost(), many(7, &[&ty])].concat()));
        let ty = all.component().get(Space::Types, 1).unwrap();
        let (scope, types) = (ty.inner().unwrap(), ty.inner().unwrap().count(Space::Types));
        assert_eq!(types, Some(2));
        has_aliases(inner(scope, Space::Types, 1), 2);
        has_aliases(scope.get(Space::Types, 1).unwrap().scope(), 1);
    }
}

/// A module type has aliases of core types alone, here from one and two scopes further out.
#[test]
fn outer_core_types() {
    let core = many(3, &[b"\x60\0\0", b"\x50\x02\x02\x10\x01\x01\0\x03\x01e\0\0"]);
    let all = read(component(&core));
    let module = inner(all.component(), Space::CoreTypes, 1);
    assert_eq!(resolved(module, Space::CoreTypes, 0), Ok(11));
    let export = module.export("e", Space::CoreFuncs).unwrap().expect("it is declared");
    assert_eq!((export.space(), export.index()), (Some(Space::CoreFuncs), None));
    assert!(matches!(export.meaning(), Meaning::Module(ModuleDeclView::Export { .. })));

    let ty = b"\x42\x01\0\x50\x01\x02\x10\x01\x02\0";
    let all = read(component(&[many(3, &[b"\x60\0\0"]), many(7, &[ty])].concat()));
    let ty = inner(all.component(), Space::Types, 0);
    let module = inner(ty, Space::CoreTypes, 0);
    assert_eq!(resolved(module, Space::CoreTypes, 0), Ok(11));
}

/// The type of a core module, and what it exports: the kind, the name, the space and the offset.
const MODULE: &[u8] = b"\x50\x07\x01\x60\0\0\x03\x01f\0\0\x03\x01t\x01\x70\0\0\x03\x01m\x02\0\0\
    \x03\x01g\x03\x7f\0\x03\x01x\x04\0\0\x03\x01h\0\0";
const OF_MODULE: [(u8, u8, Space, usize); 5] = [
    (0, b'f', Space::CoreFuncs, 17),
    (1, b't', Space::CoreTables, 22),
    (2, b'm', Space::CoreMemories, 29),
    (3, b'g', Space::CoreGlobals, 35),
    (4, b'x', Space::CoreTags, 41),
];

/// Aliases of what an instance of it exports.
fn aliases_of_module(instance: u8) -> Vec<u8> {
    let aliases = OF_MODULE.map(|(kind, name, ..)| vec![0, kind, 1, instance, 1, name]);
    many(6, &aliases.each_ref().map(Vec::as_slice))
}

/// What an imported core module exports, by its type, also through a list of exports.
#[test]
fn exports_of_core_instances() {
    let exports = OF_MODULE.map(|(kind, name, ..)| vec![1, name, kind, 0]);
    let list = [&[1, 5][..], &exports.concat()].concat();
    let import = section(10, b"\x01\0\x01m\0\x11\0");
    let instance = many(2, &[b"\0\0\0"]);
    let front = [many(3, &[MODULE]), import, instance, aliases_of_module(0)].concat();
    let all = component(&[&front[..], &many(2, &[&list]), &aliases_of_module(1)].concat());
    let (all, inside) = (read(all), read(component(&nested(&front))));
    let inside = inner(inside.component(), Space::Components, 0);
    for (_, name, space, place) in OF_MODULE {
        for index in [0, 1] {
            assert_eq!(resolved(all.component(), space, index), Ok(place), "{space:?} {index}");
        }
        assert_eq!(resolved(inside, space, 0), Ok(place + 10));
        let list = inner(all.component(), Space::CoreInstances, 1);
        let export =
            list.export(&char::from(name).to_string(), space).unwrap().expect("it is in the list");
        assert_eq!((export.space(), export.index()), (Some(space), None));
        assert_eq!(export.resolve().map(Definition::place), Ok(place));
    }
    exports_of_a_module_with_bytes();
}

/// The bytes of a module aren't read: an alias of what it exports is no other.
fn exports_of_a_module_with_bytes() {
    let module = section(1, b"\0asm\x01\0\0\0");
    let core = many(2, &[b"\0\0\0", b"\0\0\x01\x01a\x12\0"]);
    let all = read(component(&[module, core, aliases_of_module(0)].concat()));
    let alias = all.component().get(Space::CoreTables, 0).unwrap();
    assert_eq!((alias.target(), alias.resolve()), (Ok(None), Ok(alias)));
    let argument = inner(all.component(), Space::CoreInstances, 1);
    let argument = argument
        .export("a", Space::CoreInstances)
        .unwrap()
        .expect("it is an argument")
        .target()
        .unwrap()
        .unwrap();
    assert_eq!(argument.index(), Some(0));
}

/// A component that exports a type twice, an instance of it, and exports of exports of that.
fn exporting() -> Vec<u8> {
    // exports its type 0 as `t`, which is type 1, and that as `u`
    let inner = [many(7, &[b"\x79"]), section(11, b"\x02\0\x01t\x03\0\0\0\x01u\x03\x01\0")];
    let instance = many(5, &[b"\0\0\x01\x01a\x04\0"]);
    let alias = many(6, &[b"\x03\0\0\x01u"]);
    let list = many(5, &[b"\x01\x01\0\x01v\x03\0"]);
    let last = [many(6, &[b"\x03\0\x01\x01v"]), section(11, b"\x01\0\x01w\x03\x01\0")];
    let sections = [nested(&inner.concat()), instance, alias, list, last.concat()];
    component(&sections.concat())
}

/// Exports of instances of a component, of lists, and of what is exported again.
#[test]
fn exports_of_components() {
    let all = read(exporting());
    let scope = all.component();
    // the type in the component in the component
    for index in [0, 1, 2] {
        assert_eq!(resolved(scope, Space::Types, index), Ok(21), "{index}");
    }
    let one = scope.get(Space::Types, 0).unwrap().target().unwrap().unwrap();
    assert_eq!((one.index(), one.scope().outer().unwrap().place()), (Some(2), 0));
    // what comes before an export is seen from it, not the export itself
    assert_eq!(one.scope().count(Space::Types), Some(2));
    let missing = ScopeFault::OutOfRange { place: 31, space: Space::Types, index: 2, count: 2 };
    assert_eq!(one.scope().get(Space::Types, 2), Err(missing));

    let instance = scope.get(Space::Instances, 0).unwrap();
    let Meaning::Item(ItemView::Instance(InstanceView::Instantiate { component: 0, .. })) =
        instance.meaning()
    else {
        panic!("it is instantiated")
    };
    let names = |scope: Scope<'_, '_>| {
        let exports = scope.definitions().filter_map(|of| match of.meaning() {
            Meaning::Item(ItemView::Export { name, .. }) => Some(name.name.to_owned()),
            Meaning::Argument { name, .. } => Some(name.to_owned()),
            _ => None,
        });
        exports.collect::<Vec<_>>()
    };
    assert_eq!(names(instance.exports().unwrap().unwrap()), ["t", "u"]);
    assert_eq!(names(instance.inner().unwrap()), ["a"]);
    let argument = instance.inner().unwrap().export("a", Space::Components).unwrap().unwrap();
    assert_eq!(
        argument.resolve().map(Definition::place),
        scope.get(Space::Components, 0).map(Definition::place)
    );
    let list = scope.get(Space::Instances, 1).unwrap();
    assert_eq!(names(list.exports().unwrap().unwrap()), ["v"]);
    assert_eq!(names(scope), ["w"]);
}

/// Types with the bound `Eq` are the same as another; functions and instances have their types.
#[test]
fn types_of_definitions() {
    // type 0 is a function's, types 1 and 2 are imports of the same, and so is function 0's
    let imports = b"\x04\0\x01a\x03\0\0\0\x01b\x03\0\x01\0\x01f\x01\x02\0\x01r\x03\x01";
    let all = read(component(&[many(7, &[b"\x40\0\x01\0"]), section(10, imports)].concat()));
    let scope = all.component();
    assert_eq!([1, 2].map(|index| resolved(scope, Space::Types, index)), [Ok(11); 2]);
    let function = scope.get(Space::Funcs, 0).unwrap();
    assert_eq!(function.ty().unwrap().map(Definition::place), Some(11));
    assert_eq!(function.meaning().type_ref(), Some(ComponentTypeRef::Func(2)));
    let resource = scope.get(Space::Types, 3).unwrap();
    assert!(matches!((resource.ty(), resource.exports()), (Ok(None), Ok(None))));
    assert_eq!(resource.resolve(), Ok(resource));
}

/// An export with an ascribed type is a definition of its own: it has that type, and so has an
/// export of it.
#[test]
fn ascribed_types() {
    // functions 0 and 1 are imports of types 0 and 1, 2 and 3 exports of 0 and 2, 4 one of 1
    let types = many(7, &[b"\x40\0\x01\0", b"\x43\0\x01\0"]);
    let imports = many(10, &[b"\0\x01a\x01\0", b"\0\x01b\x01\x01"]);
    let exports: [&[u8]; 3] =
        [b"\0\x01c\x01\0\x01\x01\x01", b"\0\x01d\x01\x02\0", b"\0\x01e\x01\x01\0"];
    let all = read(component(&[types, imports, many(11, &exports)].concat()));
    let ty = |index| {
        let function = all.component().get(Space::Funcs, index).unwrap();
        function.ty().unwrap().and_then(Definition::index)
    };
    assert_eq!([0, 1, 2, 3, 4].map(ty), [0, 1, 1, 1, 1].map(Some));
    let targets = [0, 1, 2, 3, 4].map(|index| resolved(all.component(), Space::Funcs, index));
    assert_eq!(targets, [22, 27, 35, 35, 27].map(Ok));
    let export = all.component().get(Space::Funcs, 2).unwrap();
    assert_eq!(export.target().unwrap().map(Definition::place), Some(22));
}

/// Items at 11 with an index that is out of range, as one of a cycle is: its space, the index, and
/// the message.
fn missing() -> [(Vec<u8>, Space, u32, &'static str); 6] {
    let import = section(10, b"\x01\0\x01x\x05\0");
    [
        // the export of a type that it is itself
        (section(11, b"\x01\0\x01e\x03\0\0"), Space::Types, 0, "no type 0"),
        (many(6, &[b"\x03\x02\0\x07"]), Space::Types, 7, "no type 7"),
        (many(6, &[b"\x03\x02\x01\0"]), Space::Types, 0, "no type 0"),
        (many(6, &[b"\x03\0\x05\x01e"]), Space::Instances, 5, "no instance 5"),
        (section(10, b"\x01\0\x01e\x03\0\x01"), Space::Types, 1, "no type 1"),
        // the type of an instance, of which an alias has an export
        ([import, many(6, &[b"\x03\0\0\x01f"])].concat(), Space::Types, 0, "no type 0"),
    ]
}

/// What can't be followed, with its byte offset, and the message.
fn cases() -> Vec<(Vec<u8>, ScopeFault, String)> {
    let out = missing().map(|(sections, space, index, text)| {
        let fault = ScopeFault::OutOfRange { place: 11, space, index, count: 0 };
        (sections, fault, format!("{text} at 0xb: the space has 0"))
    });
    let import = section(10, b"\x01\0\x01x\x05\0");
    let exporting = [many(7, &[EACH_KIND]), import.clone()].concat();
    let of = |name: &[u8]| [&exporting, &many(6, &[&[b"\x03\0\0", name].concat()])[..]].concat();
    let (place, space) = (75, Space::Types);
    let others = [
        (
            of(b"\x02no"),
            ScopeFault::NoExport { place, space },
            "no type is exported by the name at 0x4b",
        ),
        (
            of(b"\x01f"),
            ScopeFault::OtherExport { place, space, found: Space::Funcs },
            "no type is exported by the name at 0x4b: found func",
        ),
        (
            [many(7, &[b"\x79"]), import, many(6, &[b"\x03\0\0\x01f"])].concat(),
            ScopeFault::OtherType { place: 15, space: Space::Instances },
            "the type at 0xf is of no instance",
        ),
    ];
    let others = others.map(|(sections, fault, text)| (sections, fault, text.to_owned()));
    out.into_iter().chain(others).collect()
}

/// Reads a component past its faults. Returns the number of these.
fn past_faults(component: Vec<u8>) -> (Instances<'static, 'static>, usize) {
    let (mut faults, component) = (Vec::new(), component.leak());
    let definitions = Definitions::past_faults(component, 100, |fault| faults.push(fault));
    assert_eq!(faults.first().copied(), Definitions::new(component, 100).err());
    (Box::leak(Box::new(definitions)).instances(), faults.len())
}

/// What comes before and after items that can't be read, also in a nested component and a type.
#[test]
fn past_a_fault() {
    let ty = many(7, &[b"\x79"]);
    for (sections, types, faults) in [
        // what isn't a section, or has no count, may define any number; nor is known what is after
        // it
        ([&ty[..], &section(10, b"\x80"), &ty].concat(), None, 1),
        ([&ty[..], b"\x0b\x7f\x01", &ty].concat(), None, 1),
        ([&ty[..], &nested(b"\x07\x02\x01\x79\x07\x01\x01"), &ty].concat(), Some(2), 1),
        // nor after bytes behind the last item
        ([&ty[..], &section(7, b"\x01\x79\x79"), &ty].concat(), None, 1),
        ([&ty[..], &section(8, b"\x01\x05\x05"), &ty].concat(), Some(2), 1),
        ([&ty[..], &section(7, b"\x02\x79\x42\x01\x01\x79\x07"), &ty].concat(), None, 1),
        ([&ty[..], &section(7, b"\x02\x79\x42\x01\x01\x79"), &ty].concat(), Some(4), 0),
        ([&ty[..], &section(8, b"\x01\x07"), &section(9, b"\x80"), &ty].concat(), Some(2), 2),
        ([&ty[..], &section(8, b"\x01\x07"), &section(10, b"\x01"), &ty].concat(), None, 2),
        ([&ty[..], &section(7, b"\x02\x79\x07"), &ty].concat(), None, 1),
        (b"\x0c\0".to_vec(), None, 1),
    ] {
        let (definitions, found) = past_faults(component(&sections));
        let count = definitions.component().count(Space::Types);
        assert_eq!((found, count), (faults, types), "{sections:x?}");
    }
    let (nothing, faults) = past_faults(Vec::new());
    assert!(faults == 1 && nothing.component().definitions().next().is_none());
}

/// Two canonical functions that can't be read, at 18, and a function of a type at 11 that is lifted
/// from this core function and exported as `f`.
fn lifting(core: u8) -> Vec<u8> {
    lifting_after(b"\x08\x03\x02\xff\xff", core)
}

/// These sections between that type and that function.
fn lifting_after(unread: &[u8], core: u8) -> Vec<u8> {
    let lift = section(8, &[1, 0, 0, core, 0, 0]);
    let unread = unread.to_vec();
    let export = section(11, b"\x01\0\x01f\x01\0\0");
    component(&[many(7, &[b"\x40\0\x01\0"]), unread, lift, export].concat())
}

/// The section and the number of what can't be read, and whether that number is known.
fn unread(scope: Scope<'_, '_>) -> Vec<(Option<ComponentSectionId>, u32, bool)> {
    let unread = scope.definitions().filter_map(|of| match of.meaning() {
        Meaning::Unread { section, count, is_known } => Some((section, count, is_known)),
        _ => None,
    });
    unread.collect()
}

/// Indices that depend on what can't be read aren't known.
#[test]
fn indices_after_a_fault() {
    let (place, space) = (31, Space::Funcs);
    // the last one of both may be a lifted function, if there is a core function 0, or none
    for core in [0, 2] {
        let (definitions, _) = past_faults(lifting(core));
        let scope = definitions.component();
        let export = scope.export("f", Space::Funcs).unwrap().expect("it is read");
        let fault = ScopeFault::Unread { place, space, unread: 18 };
        assert_eq!((export.target(), export.ty().err()), (Err(fault), Some(fault)));
        assert_eq!(fault.to_string(), "the func at 0x1f depends on what isn't read at 0x12");
        assert_eq!(unread(scope), [(Some(ComponentSectionId::CanonicalFunction), 2, false)]);
        assert_eq!((export.index(), scope.count(space)), (None, None));
        assert_eq!((scope.count(Space::CoreFuncs), scope.count(Space::Types)), (None, Some(1)));
        assert_eq!(resolved(scope, Space::Types, 0), Ok(11));
    }
    // nor are they after aliases or imports that can't be read, if functions are core functions
    for (between, unread) in [(b"\x06\x02\x01\xff", 18), (b"\x0a\x02\x01\xff", 22)] {
        let (definitions, faults) =
            past_faults(lifting_after(&[b"\x08\x02\x01\xff", &between[..]].concat(), 0));
        let export =
            definitions.component().export("f", Space::Funcs).unwrap().expect("it is read");
        let fault = ScopeFault::Unread { place: 34, space, unread };
        assert_eq!((faults, export.target(), export.index()), (2, Err(fault), None));
    }
    // neither is an export of an instance whose component has exports that can't be read, at 21
    let aliased = |inner: Vec<u8>| {
        let sections = [nested(&inner), many(5, &[b"\0\0\0"]), many(6, &[b"\x01\0\0\x01f"])];
        let (all, _) = past_faults(component(&sections.concat()));
        let alias = all.component().get(space, 0).expect("an alias");
        alias.target().expect_err("it isn't followed")
    };
    let exports = aliased(section(11, b"\x01\xff"));
    assert_eq!(exports, ScopeFault::Unread { place: 31, space, unread: 21 });
    let types = aliased(section(7, b"\x01\xff"));
    assert_eq!(types, ScopeFault::NoExport { place: 31, space });
}

/// They are known once the last core function is referred to that there can be.
#[test]
fn indices_after_core_functions() {
    let (definitions, _) = past_faults(lifting(1));
    let scope = definitions.component();
    let export = scope.export("f", Space::Funcs).unwrap().expect("it is read");
    assert_eq!(export.resolve().map(|of| (of.place(), of.index())), Ok((23, Some(0))));
    assert_eq!((export.index(), scope.count(Space::Funcs)), (Some(1), Some(2)));
    assert_eq!(unread(scope), [(Some(ComponentSectionId::CanonicalFunction), 2, true)]);
    let space = Space::CoreFuncs;
    for index in [0, 1] {
        let fault = ScopeFault::Unread { place: 0, space, unread: 18 };
        assert_eq!(scope.get(space, index), Err(fault));
    }
    let missing = ScopeFault::OutOfRange { place: 0, space, index: 2, count: 2 };
    assert_eq!(scope.get(space, 2), Err(missing));
}

/// Expects that a definition can't be followed, as this index of this place is out of range.
fn is_cycle(of: Definition<'_, '_>, place: usize, space: Space, index: u32) {
    let fault = ScopeFault::OutOfRange { place, space, index, count: index.into() };
    assert_eq!((of.target(), of.resolve()), (Err(fault), Err(fault)));
}

/// What would be its own definition refers to an index that isn't there yet.
#[test]
fn cycles() {
    // a declared type that is itself, and an alias of it
    let ty = b"\x42\x01\x04\0\x01t\x03\0\0";
    let import = section(10, b"\x01\0\x01i\x05\0");
    let all = read(component(&[many(7, &[ty]), import, many(6, &[b"\x03\0\0\x01t"])].concat()));
    let declared = inner(all.component(), Space::Types, 0)
        .export("t", Space::Types)
        .unwrap()
        .expect("it is declared");
    is_cycle(declared, 13, Space::Types, 0);
    assert_eq!(all.component().resolve(Space::Types, 1).err(), declared.resolve().err());
    // a component with an alias of itself, and one of the component behind it
    for index in [0, 1] {
        let alias = many(6, &[&[4, 2, 1, index]]);
        let all =
            read(component(&[nested(b""), nested(&alias)].concat()[usize::from(1 - index) * 10..]));
        let alias = inner(all.component(), Space::Components, index.into());
        let alias = alias.get(Space::Components, 0).expect("an alias");
        is_cycle(alias, 21 + usize::from(index) * 10, Space::Components, index.into());
    }
    // an argument that is its own instance
    let instance = many(5, &[b"\0\0\x01\x01a\x05\0"]);
    let all = read(component(&[nested(b""), instance].concat()));
    let argument = inner(all.component(), Space::Instances, 0)
        .export("a", Space::Instances)
        .unwrap()
        .expect("an argument");
    is_cycle(argument, 24, Space::Instances, 0);
}

/// Components in one another, and types, up to a limit.
#[test]
fn too_deep() {
    let all = component(&nested(&nested(&nested(b""))));
    for (limit, place) in [(0, 10), (1, 20), (2, 30)] {
        let error = Definitions::new(&all, limit).expect_err("it is too deep");
        assert_eq!((error.part, error.offset), (Part::Depth, place));
    }
    assert!(Definitions::new(&all, 3).is_ok());
    let types = |depth| {
        let ty = [&b"\x42\x01\x01".repeat(depth)[..], b"\x42\0"].concat();
        component(&[&b"\x07\xaf\x02\x01"[..], &ty].concat())
    };
    let error = Definitions::new(&types(100), 0).expect_err("it is too deep");
    assert_eq!((error.part, error.offset), (Part::Item(0), 12));
    assert_eq!(error.cause, Cause::Deep { place: 12 + 300 });
}

#[test]
fn faults() {
    for (sections, fault, text) in cases() {
        let all = read(component(&sections));
        let last = all.component().definitions().last().expect("an item");
        assert_eq!((last.resolve(), last.target()), (Err(fault), Err(fault)), "{sections:x?}");
        assert!(text.contains(&format!(" at {:#x}", fault.place())), "{text}");
        assert_eq!(fault.to_string(), text);
        // so is what is the same as it
        let again =
            read(component(&[&sections[..], &section(11, b"\x01\0\x01z\x03\0\0")].concat()));
        if all.component().count(Space::Types) == Some(1) {
            let last = again.component().definitions().last().expect("an item");
            assert_eq!(last.resolve(), Err(fault));
            assert_ne!(last.target(), Ok(None));
        }
    }
    let all = component(b"");
    let missing = ScopeFault::OutOfRange { place: 0, space: Space::Values, index: 0, count: 0 };
    assert_eq!(read(all).component().get(Space::Values, 0).err(), Some(missing));
}

/// A resource is another one in each instance, as written in one instance type or one component.
#[test]
fn resources_of_instances() {
    // imports a and b of one type, and an alias of the resource of each
    let ty: &[u8] = b"\x42\x01\x04\0\x01r\x03\x01";
    let imports = many(10, &[b"\0\x01a\x05\0", b"\0\x01b\x05\0"]);
    let aliases = many(6, &[b"\x03\0\0\x01r", b"\x03\0\x01\x01r", b"\x03\0\0\x01r"]);
    let all = read(component(&[many(7, &[ty]), imports, aliases].concat()));
    let ty = |index| all.component().resolve(Space::Types, index).expect("it is followed");
    assert!(ty(1) != ty(2) && ty(1) == ty(3) && ty(1).place() == ty(2).place());
    let origin = [1, 2].map(|index| ty(index).origin().unwrap().and_then(Definition::name));
    assert_eq!(origin, [Some("a"), Some("b")]);
    assert_eq!(ty(2).instance().and_then(Definition::index), Some(1));
    let import = all.component().get(Space::Instances, 1).unwrap();
    let exports = import.exports().unwrap().unwrap();
    assert_eq!(
        (exports.instance(), exports.export("r", Space::Types)),
        (Some(import), Ok(Some(ty(2))))
    );
    assert_eq!(all.component().instance(), None);
    // a component that defines one and exports it, instantiated twice
    let inner = [many(7, &[b"\x3f\x7f\0"]), section(11, b"\x01\0\x01r\x03\0\0")];
    let instances = many(5, &[b"\0\0\0", b"\0\0\0"]);
    let aliases = many(6, &[b"\x03\0\0\x01r", b"\x03\0\x01\x01r"]);
    let all = read(component(&[nested(&inner.concat()), instances, aliases].concat()));
    let ty = |index| all.component().resolve(Space::Types, index).expect("it is followed");
    assert!(ty(0) != ty(1) && ty(0).place() == ty(1).place());
    assert_eq!(ty(0).origin(), Ok(None));
}

/// A component that exports what it imports, in another, and so on: an import is its argument at
/// any depth. Each passes twice through the one in it, which takes no longer.
#[test]
fn arguments_at_any_depth() {
    let import = section(10, b"\x01\0\x01t\x03\x01");
    let mut inner = [&import[..], &section(11, b"\x01\0\x01e\x03\0\0")].concat();
    for _ in 0..60 {
        let first = many(5, &[b"\0\0\x01\x01t\x03\0"]);
        let again = many(5, &[b"\0\0\x01\x01t\x03\x01"]);
        let (alias, last) = (many(6, &[b"\x03\0\0\x01e"]), many(6, &[b"\x03\0\x01\x01e"]));
        let export = section(11, b"\x01\0\x01e\x03\x02\0");
        let mut size = Vec::new();
        let nested = component(&inner);
        let mut len = nested.len();
        while len > 0x7f {
            size.push(u8::try_from(len & 0x7f).expect("seven bits") | 0x80);
            len >>= 7;
        }
        size.push(u8::try_from(len).expect("seven bits"));
        let nested = [&[4][..], &size, &nested].concat();
        inner = [import.clone(), nested, first, alias, again, last, export].concat();
        let all = read(component(&inner));
        let export = all.component().export("e", Space::Types).unwrap().expect("it is there");
        assert_eq!(export.resolve(), all.component().get(Space::Types, 0));
    }
}

/// A component that is passed itself, which the validator refuses, instantiates it for ever.
#[test]
fn what_has_no_end() {
    // components with an export `y`
    let ty = many(7, &[b"\x41\x01\x04\0\x01y\x03\x01"]);
    let import = section(10, b"\x01\0\x01x\x04\0");
    let instance = many(5, &[b"\0\0\x01\x01x\x04\0"]);
    let alias = many(6, &[b"\x03\0\0\x01y"]);
    let export = section(11, b"\x01\0\x01y\x03\x01\0");
    let inner = nested(&[&ty[..], &import, &instance, &alias, &export].concat());
    let all = read(component(&[&inner[..], &instance, &alias].concat()));
    let fault = all.component().resolve(Space::Types, 0);
    assert!(matches!(fault, Err(ScopeFault::TooDeep { .. })), "{fault:?}");
    let export = inner_export(&all);
    assert!(export.resolve().is_ok());
}

/// The export of component 0, as it is written.
fn inner_export<'s>(all: &'s Instances<'s, 'static>) -> Definition<'s, 'static> {
    inner(all.component(), Space::Components, 0)
        .export("y", Space::Types)
        .unwrap()
        .expect("it is there")
}

/// An instance that is exported with a type has what that type exports, and nothing else.
#[test]
fn exports_of_an_ascribed_type() {
    let wide: &[u8] = b"\x42\x03\x01\x40\0\x01\0\x04\0\x01f\x01\0\x04\0\x01g\x01\0";
    let narrow: &[u8] = b"\x42\x02\x01\x40\0\x01\0\x04\0\x01f\x01\0";
    let import = section(10, b"\x01\0\x01x\x05\0");
    let export = section(11, b"\x01\0\x01y\x05\0\x01\x05\x01");
    let all = read(component(&[many(7, &[wide, narrow]), import, export].concat()));
    let count = |index| {
        let of = all.component().get(Space::Instances, index).expect("it is there");
        let exports = of.exports().expect("it is followed").expect("it has exports");
        exports.definitions().filter(|of| of.name().is_some()).count()
    };
    assert_eq!((count(0), count(1)), (2, 1));
}

/// What a component defines that isn't entered isn't known.
#[test]
fn beyond_the_limit() {
    let bytes =
        b"\0asm\x0d\0\x01\0\x04\x15\0asm\x0d\0\x01\0\x07\x02\x01\x79\x0b\x07\x01\0\x01t\x03\0\0\
        \x05\x04\x01\0\0\0\x06\x06\x01\x03\0\0\x01t";
    let definitions = Definitions::past_faults(bytes, 0, |_| {});
    let instances = definitions.instances();
    let alias = instances.component().resolve(Space::Types, 0).map(|of| of.place());
    assert_eq!(alias, Err(ScopeFault::Unread { place: 40, space: Space::Types, unread: 10 }));
    assert_eq!(inner(instances.component(), Space::Components, 0).count(Space::Types), None);
    let definitions = Definitions::new(bytes, 1).expect("it is read");
    let instances = definitions.instances();
    assert_eq!(instances.component().resolve(Space::Types, 0).map(|of| of.place()), Ok(21));
}
