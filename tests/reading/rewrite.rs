//! Sections that were read, written again: as they stand, by their items as trees and borrowed, and
//! by items whose bytes are kept.

use crate::sections::EACH_KIND;
use crate::spellings::ROWS;
use crate::{bytes, component};
use wenc::tree::{
    self, AliasTree, ComponentDecl, CoreCompositeType, CoreTypeTree, DefinedTree, GroupTree,
    ItemTree, ModuleDecl, NameTree, TypeTree,
};
use wenc::*;
use wenc_calls::by_items::{by_items, sections};

/// The component with these sections, in hexadecimal.
fn of_digits(sections: &str) -> Vec<u8> {
    component(&bytes(sections))
}

#[test]
fn a_section_is_written_as_it_stands() {
    for (wide, _) in ROWS {
        let bytes = of_digits(wide);
        let (mut whole, mut appended) = (Component::new(), Component::HEADER.to_vec());
        for section in sections(&bytes) {
            assert_eq!(section.bytes(), &bytes[section.range()]);
            whole.section(&section);
            section.append_to_component(&mut appended);
        }
        assert_eq!((whole.as_slice(), appended.as_slice()), (&bytes[..], &bytes[..]), "{wide}");
    }
}

#[test]
fn a_section_has_its_id_and_content() {
    let bytes = of_digits("0183808000abcdef 0a0100");
    let [module, imports] = sections(&bytes).collect::<Vec<_>>().try_into().expect("there are two");
    assert_eq!((module.raw().id, module.raw().data), (1, &[0xab, 0xcd, 0xef][..]));
    assert_eq!((imports.raw().id, imports.raw().data), (10, &[0][..]));
}

#[test]
fn items_are_written_anew() {
    for (wide, strict) in ROWS {
        let (bytes, wanted) = (of_digits(wide), of_digits(strict));
        let owned = by_items(&bytes, |made, _, item| made.item(&item).map(|_| ()));
        let borrowed = by_items(&bytes, |made, place, _| {
            let mut items = Items::at(&bytes, made.id(), place, 1).expect("it is within");
            let view = items.next().expect("an item").expect("it is read").view;
            made.item(&view).map(|_| ())
        });
        let mut anew = Component::new();
        for section in &list(&bytes).expect("it is listed").sections {
            anew.section(section);
        }
        assert_eq!([owned, borrowed, anew.finish()], [&wanted[..]; 3], "{wide}");
    }
}

/// Sections whose size or count is padded, and the same sections encoded again.
const PADDED_IN_FRONT: [(&str, &str); 2] =
    [("0a8a8080800081808080000101660100", "0a06010101660100"), ("018080808000", "0100")];

#[test]
fn items_keep_their_spelling() {
    let mut changed = 0;
    for (wide, _) in ROWS {
        let bytes = of_digits(wide);
        let in_front = PADDED_IN_FRONT.iter().find(|(padded, _)| padded == wide);
        changed += in_front.iter().count();
        let wanted = of_digits(in_front.map_or(wide, |(_, anew)| anew));
        let kept = by_items(&bytes, |made, place, _| made.raw(&bytes[place]).map(|_| ()));
        assert_eq!(kept, wanted, "{wide}");
    }
    assert_eq!(changed, PADDED_IN_FRONT.len());
}

#[test]
fn a_changed_item_has_neighbours_as_they_stand() {
    // Aliases of what an instance exports, and of two types further out, whose numbers are padded.
    let bytes = of_digits("0615030100000166030281800087808080000302018000");
    let changed = by_items(&bytes, |made, place, item| {
        match item {
            ItemTree::Alias(AliasTree::InstanceExport { instance, kind, .. }) => {
                let name = String::from("renamed");
                made.item(&ItemTree::Alias(AliasTree::InstanceExport { instance, kind, name }))
            }
            _ => made.raw(&bytes[place]),
        }
        .map(|_| ())
    });
    assert_eq!(changed, of_digits("061b030100000772656e616d6564030281800087808080000302018000"));
    let mut section = ItemSection::new(6);
    section.raw(&bytes[20..]).expect("there is memory");
    let printed = format!("ItemSection {{ id: 6, len: 1, items: {:?} }}", &bytes[20..]);
    assert_eq!(format!("{section:?}"), printed);
}

/// The only type in a section that has these parts behind the number of its types.
fn only_type(id: u8, parts: &[&str]) -> ItemTree {
    let bytes = component(&crate::section(id, &bytes(&["01", &parts.concat()].concat())));
    list(&bytes)
        .expect("it is listed")
        .sections
        .into_iter()
        .flat_map(|of| of.items)
        .next()
        .expect("an item")
}

/// The values have these bytes.
fn are_encoded(rows: &[(&dyn Encode, &str)]) {
    for (value, wanted) in rows {
        let mut sink = vec![7];
        value.encode(&mut sink);
        assert_eq!(sink, bytes(&["07", wanted].concat()), "{wanted}");
    }
}

#[test]
fn declarations_encode_themselves() {
    let parts =
        ["4106", "030001690500", "0060017f017e", "0173", "014100", "0203020102", "040001650100"];
    let ItemTree::Type(ty) = only_type(7, &parts) else { panic!("a type") };
    let TypeTree::Component(decls) = &ty else { panic!("of components") };
    let [import, rest @ ..] = &decls[..] else { panic!("declarations") };
    are_encoded(&[(&ty, &parts.concat()), (import, parts[1])]);
    assert_eq!(rest.len(), 5);
    for (one, wanted) in rest.iter().zip(&parts[2..]) {
        let ComponentDecl::Decl(decl) = one else { panic!("no import") };
        are_encoded(&[(one, wanted), (decl, wanted)]);
    }

    let parts = ["5004", "00016d01660000", "0160017f017e", "0210010100", "030167037c01"];
    let ItemTree::CoreType(ty) = only_type(3, &parts) else { panic!("a core type") };
    let CoreTypeTree::Module(decls) = &*ty else { panic!("of modules") };
    are_encoded(&[(&*ty, &parts.concat())]);
    assert_eq!(decls.len(), 4);
    decls.iter().zip(&parts[1..]).for_each(|(decl, wanted)| are_encoded(&[(decl, wanted)]));
    let ModuleDecl::Export { ty, .. } = &decls[3] else { panic!("an export") };
    are_encoded(&[(ty, "037c01")]);
}

#[test]
fn parts_of_core_types_encode_themselves() {
    let parts = ["4e03", "60017f017e", "50005f0278007f01", "4f01005e630001"];
    let ItemTree::CoreType(ty) = only_type(3, &parts) else { panic!("a core type") };
    let CoreTypeTree::Group(group @ GroupTree::Rec(types)) = &*ty else { panic!("a group") };
    let [function, structure, array] = &types[..] else { panic!("three types") };
    let CoreCompositeType::Func(func) = &function.composite_type else { panic!("a function") };
    let CoreCompositeType::Struct(fields) = &structure.composite_type else { panic!("fields") };
    let CoreCompositeType::Array(element) = &array.composite_type else { panic!("an array") };
    let heap_type = tree::CoreHeapType::Concrete(0);
    let element_type = tree::CoreValType::try_from(ValType::FUNCREF).expect("it is supported");
    let tree::CoreValType::Ref(element_type) = element_type else { panic!("a reference") };
    let memory64 = false;
    are_encoded(&[
        (&*ty, &parts.concat()),
        (group, &parts.concat()),
        (function, parts[1]),
        (structure, parts[2]),
        (array, parts[3]),
        (&function.composite_type, parts[1]),
        (&structure.composite_type, "5f0278007f01"),
        (&array.composite_type, "5e630001"),
        (func, parts[1]),
        (&func.params()[0], "7f"),
        (fields, "5f0278007f01"),
        (&fields.fields[0], "7800"),
        (&fields.fields[1].element_type, "7f"),
        (element, "5e630001"),
        (&tree::CoreRefType { nullable: true, heap_type }, "6300"),
        (&heap_type, "00"),
        (&tree::CoreAbstractHeapType::Any, "6e"),
        (
            &tree::CoreTableType { element_type, table64: false, minimum: 1, maximum: None },
            "700001",
        ),
        (&tree::CoreMemoryType { minimum: 1, maximum: Some(2), memory64, shared: false }, "010102"),
        (&tree::CoreGlobalType { val_type: tree::CoreValType::F64, mutable: true }, "7c01"),
        (&tree::CoreTagType { func_type_idx: 5 }, "0005"),
    ]);
}

#[test]
fn parts_of_items_encode_themselves() {
    let byte = ComponentValType::Primitive(PrimitiveValType::U8);
    let case = tree::CaseTree { name: "a".into(), ty: Some(byte) };
    let args = [("e".into(), ModuleArg::Instance(2))].into();
    let alias = AliasTree::Outer { kind: ComponentOuterAliasKind::Type, count: 1, index: 7 };
    let options = tree::NameOptions {
        implements: Some("x".into()),
        version_suffix: None,
        external_id: Some("y".into()),
    };
    let name = NameTree { name: "n".into(), options: Some(options.into()) };
    are_encoded(&[
        (&case, "0161017d00"),
        (&DefinedTree::Variant([case.clone()].into()), "71010161017d00"),
        (&tree::CanonTree::TaskCancel, "05"),
        (&tree::CoreInstanceTree::Instantiate { module: 128, args }, "0080010101651202"),
        (&tree::InstanceTree::Exports([].into()), "0100"),
        (&alias, "03020107"),
        (&Alias::from(&alias), "03020107"),
        (&name, "02016e02000178020179"),
        (&ComponentExternName::from(&name), "02016e02000178020179"),
        (&NameTree::from(String::from("f")), "000166"),
    ]);
}

/// Each encoder encodes a type given as a tree, with each parent.
#[test]
fn encoders_take_trees() {
    let list = || DefinedTree::List(PrimitiveValType::U8.into());
    let ty = TypeTree::Defined(list());
    let core = CoreTypeTree::Module([].into());
    let mut instance = InstanceType::new();
    instance.ty().tree(&ty);
    instance.core_type().tree(&core);
    let mut nested = ComponentType::new();
    nested.type_defined().1.tree(&list());
    nested.core_type().tree(&core);
    let mut types = ComponentTypeSection::new();
    types.instance(&instance).component(&nested).defined_type().tree(&list());
    types.ty().tree(&ty);
    let mut core_types = CoreTypeSection::new();
    core_types.ty().tree(&core);
    let mut written = Component::new();
    written.section(&types).section(&core_types);
    let wanted = of_digits("0715044202 01707d 005000 4102 01707d 005000 707d 707d 03 03 01 5000");
    assert_eq!(written.as_slice(), wanted);

    let mut builder = ComponentBuilder::default();
    builder.type_defined(None).1.tree(&list());
    builder.ty(None).1.try_tree(&ty).expect("there is memory");
    builder.core_type(None).1.tree(&core);
    assert_eq!(builder.finish(), of_digits("070502707d707d0303015000"));
}

/// An item can only be added to a section with its id, and a section without a count takes one
/// item.
#[test]
fn items_stand_in_their_sections_alone() {
    let listing = list(&of_digits(EACH_KIND.sections)).expect("it is listed");
    assert_eq!(listing.sections.len(), 12);
    for ListedSection { id, items, .. } in listing.sections {
        for other in (0..=12).filter(|other| *other != id) {
            let mut section = ItemSection::new(other);
            assert_eq!(section.item(&items[0]).err(), Some(Error::WrongSection), "{id}");
            assert!(section.is_empty());
        }
        let is_one = [0, 1, 4, 9].contains(&id);
        let more = is_one.then_some(Error::TooMany);
        let (mut anew, mut kept) = (ItemSection::new(id), ItemSection::new(id));
        let written =
            |section: &ItemSection| Component::new().section(section).as_slice()[8..].to_vec();
        if !is_one {
            assert_eq!(written(&kept), [id, 1, 0]);
        }
        anew.item(&items[0]).expect("there is room");
        kept.raw(b"\x01x").expect("there is room");
        let before = (written(&anew), written(&kept));
        assert_eq!((anew.item(&items[0]).err(), kept.raw(b"y").err()), (more, more));
        let after = (written(&anew), written(&kept));
        if is_one {
            assert_eq!(before.1, [id, 2, 1, b'x']);
            assert_eq!(after, before);
        } else {
            assert_eq!(
                (before.1, after.1),
                (vec![id, 3, 1, 1, b'x'], vec![id, 4, 2, 1, b'x', b'y'])
            );
            assert_eq!(after.0[2..], [&[2], &before.0[3..], &before.0[3..]].concat());
        }
    }
}

#[test]
#[should_panic(expected = "unfinished")]
fn what_is_one_item_is_not_written_without_it() {
    Component::new().section(&ItemSection::new(ComponentSectionId::Start));
}

#[test]
#[should_panic(expected = "item of another section")]
fn a_listed_section_with_an_item_of_another_is_not_written() {
    let mut listing = list(&of_digits("0a060100016601000b0701000167010000")).expect("it is listed");
    let export = listing.sections[1].items[0].clone();
    listing.sections[0].items = [export].into();
    Component::new().section(&listing.sections[0]);
}
