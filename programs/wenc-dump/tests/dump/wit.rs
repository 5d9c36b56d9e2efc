//! Worlds as WIT: what is printed of the components of the corpus, beside the WIT that they were
//! made of, and of others.

mod damaged;
#[allow(dead_code, reason = "a test needs no `main`")]
#[path = "../../../../examples/first.rs"]
mod first;
mod reader;
mod rows;

use crate::corpus::{corpus, paths};
use crate::{FUNCTION, component, dump};
use reader::World;
use std::collections::{BTreeMap, BTreeSet};
use std::fs;
use std::path::Path;
use wenc::tree::Space;
use wenc::view::{InstanceDeclView, ItemView, TypeView};
use wenc::{
    ComponentBuilder, ComponentDefinedTypeEncoder, ComponentTypeRef, ComponentValType,
    InstanceType, PrimitiveValType, Sections, TypeBounds,
};

/// The names of what a component imports, each with those that an instance declares.
type Imported = BTreeMap<String, BTreeSet<String>>;

fn imported(component: &[u8]) -> Imported {
    let (mut types, mut imported) = (Vec::new(), Imported::new());
    let sections = Sections::new(component).expect("a component").map(|of| of.expect("a section"));
    for item in sections.flat_map(|of| of.items()).flatten().map(|item| item.view) {
        // what an instance of the type exports, if it is the type of one
        let mut declared = BTreeSet::new();
        if let ItemView::Type(TypeView::Instance(all)) = item {
            declared.extend(all.filter_map(|decl| match decl {
                InstanceDeclView::Export { name, .. } => Some(name.name.to_owned()),
                _ => None,
            }));
        }
        if let ItemView::Import { name, ty } = item {
            let of = match ty {
                ComponentTypeRef::Instance(index) => BTreeSet::clone(&types[index as usize]),
                _ => BTreeSet::new(),
            };
            imported.insert(name.name.to_owned(), of);
        }
        if let Some((Space::Types, 1)) = item.defined_indices() {
            types.push(declared);
        }
    }
    imported
}

/// The world of a WIT file, without what the linker leaves out: imports that aren't used, and what
/// isn't used of an interface that is imported alone.
fn linked(wit: &str, component: &[u8]) -> World {
    let (mut world, imported) = (reader::read(wit), imported(component));
    let is_used = |name: &str| imported.contains_key(name);
    world.imports.retain(|name| is_used(name));
    world.items.retain(|name, item| item[0] == "export" || is_used(name));
    let World { imports, exports, interfaces, .. } = &mut world;
    interfaces.retain(|name, _| imports.contains(name) || exports.contains(name));
    for (name, items) in interfaces.iter_mut().filter(|(name, _)| !exports.contains(*name)) {
        items.retain(|item, _| imported[name].contains(item.as_str()));
    }
    world
}

/// Six of them have builtins that moved, which aren't read: the worlds don't depend on them.
#[test]
fn worlds_are_those_of_the_corpus() {
    let refused = fs::read_to_string(corpus("refused.txt")).expect("it is read");
    let (mut whole, mut items, mut behind) = (0, 0, 0);
    for path in paths() {
        let name = path.file_stem().expect("it has a name").to_string_lossy();
        let bytes = fs::read(&path).expect("it is read");
        let wit = fs::read_to_string(corpus(&format!("wit/{name}.wit"))).expect("it is read");
        let (status, out, err) = dump(&["--wit"], &bytes);
        let printed = reader::read(&out);
        items += printed.items.len() + printed.imports.len() + printed.exports.len();
        items += printed.interfaces.values().map(BTreeMap::len).sum::<usize>();
        // behind bytes that may be functions, no function is known
        let mut expected = linked(&wit, &bytes);
        let is_behind = err.contains("bytes behind the last item");
        expected.items.retain(|_, item| !is_behind || item[0] != "export");
        behind += u32::from(is_behind);
        assert_eq!(printed, expected, "{name}");
        match refused.lines().find_map(|line| line.strip_prefix(&format!("{name} BadItem "))) {
            None => whole += u32::from((status, &err[..]) == (0, "")),
            Some(place) => {
                let (place, _) = place.split_once(':').expect("a byte offset");
                let place: usize = place.parse().expect("a number");
                let first = err.lines().next().expect("a fault");
                assert!(first.contains(&format!(" in the section at {place:#x}")), "{err}");
                assert!(status == 1 && err.contains("WIT") == is_behind, "{name}: {err}");
            }
        }
    }
    assert_eq!((whole, behind, refused.lines().count()), (40, 2, 6));
    assert!(items > 400, "{items}");
}

/// Checks what is printed within the world of the component with these sections, and the messages.
fn expect(sections: &[u8], world: &str, messages: &str) {
    let (status, out, err) = dump(&["--wit"], &component(sections));
    let expected = format!("package root:component;\n\nworld root {{\n{world}}}\n");
    let messages: String = messages.lines().map(|line| format!("wenc-dump: -: {line}\n")).collect();
    assert_eq!((&out, &err), (&expected, &messages), "{sections:x?}");
    assert_eq!(status, u8::from(!messages.is_empty()));
}

#[test]
fn what_has_no_form_in_wit_is_reported() {
    expect(b"", "", "");
    expect(FUNCTION, "  import f: func();\n", "");
    // a core module, a value, and a type that is exported
    let module = b"\x03\x03\x01\x50\0\x0a\x0c\x02\0\x01m\0\x11\0\0\x01f\x01\0";
    expect(
        module,
        "  // no WIT: an import or export of another kind at 0x10\n  \
           // no WIT: no type 0 at 0x16: the space has 0\n",
        "no WIT: an import or export of another kind at 0x10\n\
         no WIT: no type 0 at 0x16: the space has 0",
    );
    // a function that takes a record, which has no name
    let record = b"\x07\x0d\x02\x72\x01\x01a\x79\x40\x01\x01r\0\x01\0\x0a\x06\x01\0\x01f\x01\x01";
    let message = "no WIT: a type without a name at 0xb";
    expect(record, &format!("  // {message}\n"), message);
    // a type that isn't a function's
    let other = b"\x07\x02\x01\x79\x0a\x06\x01\0\x01f\x01\0";
    let message = "no WIT: a type that isn't a function's at 0xb";
    expect(other, &format!("  // {message}\n"), message);
    // the first section can be read
    let cut = [FUNCTION, b"\x0a\x01\x01"].concat();
    let message = "bad item 0 at 0x1a in the section at 0x17: the section ends where an import is \
        expected";
    let unread = "no WIT: items that can't be read at 0x1a";
    let world = format!("  // {unread}\n  import f: func();\n");
    expect(&cut, &world, &format!("{message}\n{unread}"));
    // a lifted function that may be function 0, after two that can't be read
    let lifted = b"\x07\x05\x01\x40\0\x01\0\x08\x03\x02\xff\xff\x08\x06\x01\0\0\0\0\0";
    let lifted = [&lifted[..], b"\x0b\x07\x01\0\x01f\x01\0\0"].concat();
    let message = "no WIT: the func at 0x1f depends on what isn't read at 0x12";
    let fault = "bad item 0 at 0x12 in the section at 0xf: 0xff where a canonical function is \
        expected";
    expect(&lifted, &format!("  // {message}\n"), &format!("{fault}\n{message}"));
    // no component, of which nothing is printed
    let (status, out, err) = dump(&["--wit"], b"\0asm\x01\0\0\0");
    assert_eq!((status, &out[..]), (1, ""));
    assert!(err.contains("no component's header at 0x0"), "{err}");
}

/// Names that are words of WIT, and interfaces with and without a package.
#[test]
fn names_that_are_keywords_are_marked() {
    let mut ty = InstanceType::new();
    ty.export("use", ComponentTypeRef::Type(TypeBounds::SubResource));
    let mut builder = ComponentBuilder::default();
    let instance = ComponentTypeRef::Instance(builder.type_instance(None, &ty));
    builder.import("a:list/type@1.0.0", instance);
    builder.import("with", instance);
    let (function, mut encoder) = builder.type_function(None);
    encoder.params([("static", PrimitiveValType::U8)]).result(None);
    builder.import("func", ComponentTypeRef::Func(function));
    let expected = "package root:component;

world root {
  import a:%list/%type@1.0.0;
  import %with: interface {
    resource %use;
  }
  import %func: func(%static: u8);
}

package a:%list@1.0.0 {
  interface %type {
    resource %use;
  }
}
";
    let printed = dump(&["--wit"], &builder.finish());
    assert_eq!(printed, (0, expected.into(), String::new()));
}

/// README's component, and its world there.
#[test]
fn of_the_readme() {
    let (status, out, _) = dump(&["--wit"], &first::passed_on());
    let readme = Path::new(env!("CARGO_MANIFEST_DIR")).join("../../README.md");
    let readme = fs::read_to_string(readme).expect("it is there");
    let (_, printed) = readme.split_once("; of this one\n\n").expect("the world is there");
    let lines = printed.lines().take_while(|line| line.is_empty() || line.starts_with("    "));
    let lines: Vec<&str> = lines.map(|line| line.get(4..).unwrap_or_default()).collect();
    assert_eq!((status, out), (0, format!("{}\n", lines.join("\n").trim_end())));
}

/// A component with the type `u8`, types that are each of the one before, and a function that takes
/// the last.
fn chained(count: u32, each: fn(ComponentDefinedTypeEncoder<'_>, ComponentValType)) -> Vec<u8> {
    let mut builder = ComponentBuilder::default();
    builder.type_defined(None).1.primitive(PrimitiveValType::U8);
    for before in 0..count {
        each(builder.type_defined(None).1, ComponentValType::Type(before));
    }
    let (function, mut encoder) = builder.type_function(None);
    encoder.params([("x", ComponentValType::Type(count))]).result(None);
    builder.import("f", ComponentTypeRef::Func(function));
    builder.finish()
}

/// Types without names are written wherever they are used, up to a depth and a length.
#[test]
fn large_types_are_reported() {
    let of_lists = |count| chained(count, |ty, before| ty.list(before));
    let (status, out, err) = dump(&["--wit"], &of_lists(99));
    let ty = ["list<".repeat(99), "u8".into(), ">".repeat(99)].concat();
    assert_eq!((status, &err[..]), (0, ""));
    assert!(out.contains(&format!("  import f: func(x: {ty});\n")), "{out}");
    let of_tuples = chained(60, |ty, before| ty.tuple([before, before]));
    for component in [of_lists(100), of_tuples] {
        let (status, out, err) = dump(&["--wit"], &component);
        assert_eq!(status, 1);
        assert!(err.starts_with("wenc-dump: -: no WIT: a type that is too large at 0x"), "{err}");
        assert!(out.len() < 200 && out.contains("// no WIT: "), "{out}");
    }
}

/// Prints a component. Each comment in the text is a message, too.
fn expect_document(name: &str, component: &[u8], document: &str) {
    let (status, out, err) = dump(&["--wit"], component);
    assert_eq!(out, document, "{name}");
    let notes = document.lines().filter_map(|line| line.trim_start().strip_prefix("// "));
    let messages: String = notes.map(|note| format!("wenc-dump: -: {note}\n")).collect();
    assert_eq!((status, err), (u8::from(!messages.is_empty()), messages), "{name}");
}

/// Each feature of WIT, by texts that the official parser reads (`gate/wit`).
#[test]
fn features_are_written_as_the_standard_has_them() {
    for rows::Row { name, component, world, packages } in rows::rows() {
        let document = format!("package root:component;\n\nworld root {{\n{world}}}\n{packages}");
        let document = match name {
            "versions" => document.replacen("root:component;", "root:component-n1;", 1),
            _ => document,
        };
        expect_document(name, &component, &document);
    }
    expect_document("package", &rows::package(), rows::PACKAGE);
}
