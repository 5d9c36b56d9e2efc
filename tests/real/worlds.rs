//! Worlds that this crate encodes: the linker decodes them, and makes of them the components that
//! it makes of their texts.

use crate::corpus;
use crate::interfaces::*;
use crate::toolchain::linker;
use wenc::*;

/// The name of a world's files, its id, how its texts are encoded, and what it imports and exports.
type World = (&'static str, &'static str, Texts, fn(&mut ComponentType));

/// How texts are encoded that a world's functions take: what stands in the section
/// `wit-component-encoding`.
#[derive(Clone, Copy)]
enum Texts {
    Utf8,
    Utf16,
}

const WORLDS: [World; 11] = [
    ("01-flat", "t:flat/flat", Texts::Utf8, flat),
    ("04-variants", "t:variants/variants", Texts::Utf8, variants),
    ("09-resource-import", "t:res/res", Texts::Utf8, resources),
    ("10-resource-export", "t:rex/rex", Texts::Utf8, exported_resources),
    ("14-use-types", "t:uses/uses", Texts::Utf8, uses),
    ("16-packages", "t:packages/packages@2.0.0", Texts::Utf8, packages),
    ("21-async-export", "t:ase/ase", Texts::Utf8, async_export),
    ("22-streams-import", "t:str/str", Texts::Utf8, streams),
    ("27-interfaces-inline", "t:inline/inline", Texts::Utf8, inline),
    ("29-empty", "t:empty/empty", Texts::Utf8, empty),
    ("30-utf16", "t:utf-sixteen/u16w", Texts::Utf16, utf16),
];

/// A world as a component: a type that holds the world's own, exported under the world's name,
/// between sections that say how texts are encoded, and which tool has made it.
fn encoded(id: &str, world: &ComponentType, texts: Texts, tool: (&str, &str)) -> Vec<u8> {
    let mut outer = ComponentType::new();
    outer.ty().component(world);
    outer.export(id, ComponentTypeRef::Component(0));

    let mut builder = ComponentBuilder::default();
    let data = [4, texts as u8];
    let name = "wit-component-encoding".into();
    builder.custom_section(&CustomSection { name, data: data.as_slice().into() });
    let ty = builder.type_component(None, &outer);
    let world = id.split(['/', '@']).nth(1).expect("a name");
    builder.export(world, ComponentExportKind::Type, ty, None);

    let mut field = ProducersField::new();
    field.value(tool.0, tool.1);
    let mut producers = ProducersSection::new();
    producers.field("processed-by", &field);
    builder.producers_section(&producers);
    builder.finish()
}

#[test]
fn worlds_are_decoded_and_linked() {
    let Some(linker) = linker("worlds by this crate") else { return };
    let version = linker.version();
    for (name, id, texts, declare) in WORLDS {
        let object = corpus::read(&format!("o/{name}.o"));
        let expected = linker.link_text(&object, &format!("wit/{name}.wit")).expect(name);

        let mut world = ComponentType::new();
        declare(&mut world);
        // the text's world names the linker's own encoder, so that the same stands here
        let world = encoded(id, &world, texts, ("wit-component", &version));
        let mut embedding = object.clone();
        let section = format!("component-type:{name}").into();
        CustomSection { name: section, data: world.as_slice().into() }.append_to(&mut embedding);
        let linked = linker.link(&embedding).expect(name);
        assert!(linked == expected, "{name}: another component");
        linker.link_encoded(&object, &world).expect(name);
    }
}

const F32: Val = primitive(PrimitiveValType::F32);
const F64: Val = primitive(PrimitiveValType::F64);
const S64: Val = primitive(PrimitiveValType::S64);
const U64: Val = primitive(PrimitiveValType::U64);

/// A type that a world imports under a name.
fn import_type(of: &mut ComponentType, name: &str, ty: Val) -> Val {
    Val::Type(of.import_type(name, equal(ty)))
}

fn empty(_: &mut ComponentType) {}

fn flat(of: &mut ComponentType) {
    import_func(of, "log", &[("x", U32)], None);
    of.export_func("add", &[("a", U32), ("b", U32)], Some(U32));
    of.export_func("half", &[("x", F64)], Some(F32));
    of.export_func("neg", &[("x", S64)], Some(S64));
    of.export_func("nothing", &[], None);
}

fn trees(of: &mut InstanceType) {
    let many = of.defined(|ty| ty.list(STRING));
    let pair = of.defined(|ty| ty.tuple([U8, STRING]));
    let cases = [
        ("none", None),
        ("byte", Some(U8)),
        ("word", Some(U32)),
        ("dword", Some(U64)),
        ("single", Some(F32)),
        ("double", Some(F64)),
        ("text", Some(STRING)),
        ("many", Some(many)),
        ("pair", Some(pair)),
    ];
    let leaf = named_type(of, "leaf", |ty| ty.variant(cases));
    let colour =
        named_type(of, "colour", |ty| ty.enum_type(["red", "green", "blue", "ultra-violet"]));
    let few = named_type(of, "few", |ty| ty.flags(["a", "b", "c"]));
    let names: Vec<String> = (0..32).map(|i| format!("f{i}")).collect();
    let many = named_type(of, "many", |ty| ty.flags(names.iter().map(String::as_str)));
    of.export_func("walk", &[("l", leaf), ("c", colour)], Some(few));
    let option = of.defined(|ty| ty.option(leaf));
    of.export_func("roll", &[("m", many)], Some(option));
    let result = of.defined(|ty| ty.result(Some(colour), Some(leaf)));
    of.export_func("paint", &[("f", few)], Some(result));
}

fn variants(of: &mut ComponentType) {
    let ty = interface(of, trees);
    of.import("t:variants/trees", ty);
    let ty = interface(of, trees);
    of.export("t:variants/trees", ty);
}

fn files(of: &mut InstanceType) {
    let file = resource(of, "file");
    let dir = resource(of, "dir");
    let own_file = of.defined(|ty| ty.own(file));
    of.export_func("[constructor]file", &[("name", STRING)], Some(own_file));
    let this = of.defined(|ty| ty.borrow(file));
    let bytes = of.defined(|ty| ty.list(U8));
    of.export_func("[method]file.read", &[("self", this), ("n", U32)], Some(bytes));
    let result = of.defined(|ty| ty.result(Some(U32), Some(STRING)));
    of.export_func("[method]file.write", &[("self", this), ("b", bytes)], Some(result));
    let in_dir = of.defined(|ty| ty.borrow(dir));
    let option = of.defined(|ty| ty.option(own_file));
    of.export_func("[static]file.open", &[("n", STRING), ("d", in_dir)], Some(option));
    let list = of.defined(|ty| ty.list(own_file));
    of.export_func("list-dir", &[("d", in_dir)], Some(list));
    let own_dir = of.defined(|ty| ty.own(dir));
    of.export_func("eat", &[("d", own_dir)], None);
}

fn resources(of: &mut ComponentType) {
    let ty = interface(of, files);
    of.import("t:res/files", ty);
    of.export_func("run", &[], Some(U32));
}

fn things(of: &mut InstanceType) {
    let thing = resource(of, "thing");
    let own = of.defined(|ty| ty.own(thing));
    let holder = named_type(of, "holder", |ty| ty.record([("it", own), ("n", U32)]));
    of.export_func("[constructor]thing", &[("v", U32)], Some(own));
    let this = of.defined(|ty| ty.borrow(thing));
    of.export_func("[method]thing.get", &[("self", this)], Some(U32));
    of.export_func("[method]thing.set", &[("self", this), ("v", U32)], None);
    of.export_func("[static]thing.join", &[("a", own), ("b", this)], Some(own));
    of.export_func("wrap", &[("t", own)], Some(holder));
    of.export_func("peek", &[("t", this)], Some(U32));
    let list = of.defined(|ty| ty.list(own));
    of.export_func("all", &[], Some(list));
}

fn exported_resources(of: &mut ComponentType) {
    let ty = interface(of, things);
    of.export("t:rex/things", ty);
}

fn uses(of: &mut ComponentType) {
    let a = interface(of, |of| {
        let list = of.defined(|ty| ty.list(STRING));
        let r = named_type(of, "r", |ty| ty.record([("x", U8), ("y", list)]));
        named_type(of, "e", |ty| ty.enum_type(["one", "two"]));
        named(of, "alias1", r);
    });
    of.import("t:uses/a", a);
    let [r, e, alias1] = ["r", "e", "alias1"].map(|name| of.alias_export_type(0, name));
    let b = interface(of, |of| {
        let r = used(of, r, "r");
        let ee = used(of, e, "ee");
        let alias1 = used(of, alias1, "alias1");
        named_type(of, "mine", |ty| ty.list(r));
        of.export_func("get", &[("x", r), ("y", ee)], Some(alias1));
    });
    of.import("t:uses/b", b);
    let (mine, ee) = (of.alias_export_type(1, "mine"), of.alias_export_type(1, "ee"));
    let c = |of: &mut InstanceType| {
        let r = used(of, r, "r");
        let mine = used(of, mine, "mine");
        let ee = used(of, ee, "ee");
        of.export_func("put", &[("m", mine), ("r", r)], Some(ee));
    };
    let ty = interface(of, c);
    of.import("t:uses/c", ty);
    let world_r = import_type(of, "r", Val::Type(r));
    let option = of.defined(|ty| ty.option(world_r));
    let wr = import_type(of, "wr", option);
    let record = of.defined(|ty| ty.record([("a", world_r)]));
    let mine2 = import_type(of, "mine2", record);
    of.export_func("top", &[("x", wr)], Some(world_r));
    of.export_func("top2", &[("o", mine2)], None);
    let ty = interface(of, c);
    of.export("t:uses/c", ty);
}

fn packages(of: &mut ComponentType) {
    let types = interface(of, |of| {
        let instant = named_type(of, "instant", |ty| ty.primitive(PrimitiveValType::U64));
        named_type(of, "span", |ty| ty.record([("low", instant), ("high", instant)]));
        of.export_func("now", &[], Some(instant));
    });
    of.import("dep:one/types@1.2.3", types);
    let span = of.alias_export_type(0, "span");
    let logging = interface(of, |of| {
        let span = used(of, span, "span");
        named_type(of, "level", |ty| ty.enum_type(["debug", "info"]));
        of.export_func("log", &[("s", span), ("text", STRING)], None);
    });
    of.import("dep:two/logging@0.1.0-rc.1+build5", logging);
    let level = of.alias_export_type(1, "level");
    let mine = interface(of, |of| {
        let level = used(of, level, "level");
        let span = used(of, span, "span");
        of.export_func("act", &[("l", level)], Some(span));
    });
    of.export("t:packages/mine@2.0.0", mine);
}

fn async_export(of: &mut ComponentType) {
    let srv = interface(of, |of| {
        let req = named_type(of, "req", |ty| ty.record([("url", STRING), ("n", U32)]));
        let result = of.defined(|ty| ty.result(Some(STRING), Some(U8)));
        of.export_async("handle", &[("r", req)], Some(result));
        let pair = of.defined(|ty| ty.tuple([U32, STRING]));
        of.export_async("other", &[("x", F64)], Some(pair));
        of.export_async("sync-one", &[("x", U8)], None);
    });
    of.export_async("top", &[], Some(U32));
    of.export("t:ase/srv", srv);
}

fn streams(of: &mut ComponentType) {
    let io = interface(of, |of| {
        let bytes = of.defined(|ty| ty.stream(Some(U8)));
        of.export_func("read", &[], Some(bytes));
        let text = of.defined(|ty| ty.future(Some(STRING)));
        let list = of.defined(|ty| ty.list(U8));
        let later = of.defined(|ty| ty.future(Some(list)));
        of.export_func("later", &[("x", text)], Some(later));
        let (stream, future) = (of.defined(|ty| ty.stream(None)), of.defined(|ty| ty.future(None)));
        let streams = of.defined(|ty| ty.stream(Some(bytes)));
        let futures = of.defined(|ty| ty.future(Some(future)));
        let pair = of.defined(|ty| ty.tuple([streams, futures]));
        of.export_func("unit", &[("s", stream), ("f", future)], Some(pair));
    });
    of.import("t:str/io", io);
    of.export_func("run", &[], None);
}

fn inline(of: &mut ComponentType) {
    let things = interface(of, |of| {
        let a = named_type(of, "a", |ty| ty.record([("b", U8)]));
        let list = of.defined(|ty| ty.list(a));
        of.export_func("f", &[("x", a)], Some(list));
    });
    of.import("things", things);
    import_func(of, "lone", &[], None);
    let out = interface(of, |of| {
        let v = named_type(of, "v", |ty| ty.variant([("a", None), ("b", Some(STRING))]));
        of.export_func("g", &[("x", v)], Some(v));
    });
    of.export("out", out);
}

fn utf16(of: &mut ComponentType) {
    import_func(of, "log", &[("s", STRING)], Some(STRING));
    let list = of.defined(|ty| ty.list(STRING));
    of.export_func("back", &[("s", STRING)], Some(list));
}
