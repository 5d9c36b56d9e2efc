//! The traits of std that types have: comparison and output by content, hashes, order, conversions.

use std::borrow::Cow;
use std::collections::{BTreeSet, HashMap, HashSet};
use std::error::Error;
use std::fmt::Debug;
use wenc::tree::{self, AliasTree, Command, DefinedTree, ItemTree, NameTree, Space, TypeTree};
use wenc::*;
use wenc_calls::encoded::encoded;

fn imports(name: &str) -> ComponentImportSection {
    let mut section = ComponentImportSection::new();
    section.import(name, ComponentTypeRef::Func(0));
    section
}

/// Values with the same content are equal and print the same; others are not equal and print
/// differently.
fn is_of_content<T: PartialEq + Debug>(
    alike: [T; 2],
    others: impl IntoIterator<Item = T>,
    printed: &str,
) {
    assert_eq!(alike[0], alike[1]);
    assert_eq!(format!("{:?}", alike[0]), printed);
    others.into_iter().for_each(|other| assert_ne!(alike[0], other));
}

#[test]
fn sections_are_compared_and_printed_by_content() {
    // size, count, name without options, function, type
    let printed = "ComponentImportSection { bytes: [6, 1, 0, 1, 102, 1, 0] }";
    let others = [imports("g"), ComponentImportSection::new()];
    is_of_content([imports("f"), imports("f")], others, printed);

    let (mut one, mut two) = (ItemSection::new(10), ItemSection::new(10));
    let import = ItemTree::Import { name: "f".into(), ty: ComponentTypeRef::Func(0) };
    one.item(&import).unwrap();
    two.raw(&[0, 1, b'f', 1, 0]).unwrap();
    let printed = "ItemSection { id: 10, len: 1, items: [0, 1, 102, 1, 0] }";
    is_of_content([one, two], [ItemSection::new(10), ItemSection::new(11)], printed);
}

#[test]
fn types_are_compared_and_printed_by_content() {
    let own = |resource| {
        let mut ty = InstanceType::new();
        ty.ty().defined_type().own(resource);
        ty
    };
    is_of_content([own(1), own(1)], [own(2)], "InstanceType { bytes: [66, 1, 1, 105, 1] }");
    assert_eq!(format!("{:?}", CoreTypeSection::new()), "CoreTypeSection { bytes: [1, 0] }");
    assert_eq!(format!("{:?}", ModuleType::new()), "ModuleType { bytes: [80, 0] }");
    assert_eq!(format!("{:?}", ComponentType::new()), "ComponentType { bytes: [65, 0] }");

    // An unfinished one has no bytes, and isn't equal to any.
    let mut begun = own(1);
    assert_eq!(format!("{:?}", begun.ty()), "ComponentTypeEncoder { .. }");
    assert_ne!(begun, begun.clone());
    assert_eq!(format!("{begun:?}"), "InstanceType { is_finished: false, .. }");
    begun.discard_unfinished();
    assert_eq!(begun, own(1));
}

#[test]
fn names_are_compared_and_printed_by_content() {
    let mut names = NameMap::new();
    names.append(3, "f");
    let printed = "NameMap { bytes: [1, 3, 1, 102] }";
    is_of_content([names.clone(), names], [NameMap::new()], printed);
    assert_ne!(
        ProducersSection::new(),
        ProducersSection::new().field("sdk", &ProducersField::new()).clone()
    );

    let name = ComponentExternName::from("a:b/c@1");
    let longer = ComponentExternName { version_suffix: Some(".2".into()), ..name.clone() };
    assert_ne!(name, longer);
    assert_eq!(HashSet::from([name.clone(), longer, name]).len(), 2);
}

#[test]
fn components_and_modules_are_compared() {
    let component = Component::new().section(&imports("f")).clone();
    assert_ne!(component, Component::new());
    assert_eq!(Component::new(), Component::default());
    let printed = "Module { bytes: [0, 97, 115, 109, 1, 0, 0, 0] }";
    is_of_content([Module::new(), Module::default()], [], printed);
    assert_eq!(NestedComponentSection(&component), NestedComponentSection(&component.clone()));
    let raw = RawSection { id: 0, data: b"\x01x" };
    assert_ne!(raw, RawSection { id: 1, ..raw });
}

/// Trees can be hashed, so that a caller can encode each type once.
#[test]
fn trees_have_hashes() {
    let list = |ty: PrimitiveValType| -> TypeTree {
        let list: DefinedTree = DefinedTree::List(ty.into());
        TypeTree::Defined(list)
    };
    let mut encoded = HashMap::new();
    for ty in [PrimitiveValType::U8, PrimitiveValType::S8, PrimitiveValType::U8] {
        let next = encoded.len();
        encoded.entry(list(ty)).or_insert(next);
    }
    assert_eq!(encoded.len(), 2);
    assert_eq!(encoded[&list(PrimitiveValType::S8)], 1);

    let command = Command::Custom { name: "x".into(), data: [7].into() };
    assert_eq!(HashSet::from([command.clone(), command, Command::AppendNames]).len(), 2);
    let built = tree::build(&[Command::AppendNames]).unwrap();
    assert!(HashSet::from([built.clone()]).contains(&built));
    let kinds = [ComponentExportKind::Func, ComponentExportKind::Value, ComponentExportKind::Func];
    assert_eq!(HashSet::from(kinds).len(), 2);
    assert_eq!(HashSet::from([ComponentSectionId::Alias, ComponentSectionId::Alias]).len(), 1);
}

#[test]
fn spaces_are_in_the_order_of_their_numbers() {
    let spaces: BTreeSet<Space> = Space::ALL.into_iter().rev().collect();
    assert!(spaces.into_iter().eq(Space::ALL));
    assert!(Space::CoreModules < Space::Types);
}

/// The numbers from 0 on are the ids of these names, which encode themselves, and no others are
/// ids.
fn are_ids<T>(names: &str)
where
    T: TryFrom<u8, Error = UnknownSectionId> + Into<u8> + Encode + Copy + PartialEq + Debug,
{
    let mut names = names.split(' ');
    for number in 0..=u8::MAX {
        let id = T::try_from(number);
        assert_eq!(id.map(|id| format!("{id:?}")).ok().as_deref(), names.next());
        match id {
            Ok(id) => assert_eq!((id.into(), encoded(&id)), (number, vec![number])),
            Err(unknown) => assert_eq!(unknown, UnknownSectionId(number)),
        }
    }
}

#[test]
fn ids_of_sections() {
    are_ids::<ComponentSectionId>(
        "CoreCustom CoreModule CoreInstance CoreType Component Instance Alias Type \
         CanonicalFunction Start Import Export",
    );
    are_ids::<SectionId>(
        "Custom Type Import Function Table Memory Global Export Start Element Code Data DataCount \
         Tag",
    );
    assert_eq!(UnknownSectionId(255).to_string(), "no section has the id 255");
}

#[test]
fn names_and_their_trees() {
    let plain = NameTree::from("f");
    assert_eq!(plain, NameTree { name: "f".into(), options: None });
    assert_eq!(NameTree::from(String::from("f")), plain);
    assert_eq!(NameTree::from(ComponentExternName::from("f")), plain);

    let whole = ComponentExternName {
        name: "a:b/c@1".into(),
        implements: Some("d:e/f".into()),
        version_suffix: None,
        external_id: Some("g".into()),
    };
    let tree = NameTree::from(whole.clone());
    let options = tree.options.as_ref().unwrap();
    assert_eq!(options.implements.as_deref(), Some("d:e/f"));
    assert_eq!(options.version_suffix, None);
    assert_eq!(options.external_id.as_deref(), Some("g"));
    assert_eq!(ComponentExternName::from(&tree), whole);
    let at = tree.name.as_ptr();
    let moved = ComponentExternName::from(tree);
    assert_eq!((&moved, moved.name.as_ptr()), (&whole, at));
    assert!(matches!(moved.external_id, Some(Cow::Owned(_))));

    for name in [Cow::Borrowed("f"), Cow::Owned(String::from("f"))] {
        assert_eq!(ComponentExternName::from(name), ComponentExternName::from("f"));
    }
}

#[test]
fn names_of_trees_are_taken_where_names_are() {
    let mut section = ComponentImportSection::new();
    let ty = ComponentTypeRef::Func(0);
    section.import(String::from("f"), ty).import(NameTree::from("g"), ty);
    let options =
        tree::NameOptions { implements: None, version_suffix: None, external_id: Some("x".into()) };
    section.import(NameTree { name: "h".into(), options: Some(options.into()) }, ty);
    assert_eq!(
        encoded(&section),
        *b"\x14\x03\0\x01f\x01\0\0\x01g\x01\0\x02\x01h\x01\x02\x01x\x01\0"
    );
}

#[test]
fn aliases_and_their_trees() {
    for alias in [
        Alias::InstanceExport { instance: 1, kind: ComponentExportKind::Func, name: "f" },
        Alias::CoreInstanceExport { instance: 2, kind: ExportKind::Table, name: "t" },
        Alias::Outer { kind: ComponentOuterAliasKind::CoreType, count: 3, index: 4 },
    ] {
        assert_eq!(Alias::from(&AliasTree::from(alias)), alias);
    }
    let export = Alias::CoreInstanceExport { instance: 2, kind: ExportKind::Table, name: "t" };
    let tree =
        AliasTree::CoreInstanceExport { instance: 2, kind: ExportKind::Table, name: "t".into() };
    assert_eq!(AliasTree::from(export), tree);
}

#[test]
fn boxes_of_trees_are_like_boxes() {
    let boxed = tree::Box::try_new("x").unwrap();
    assert_eq!((*boxed, format!("{boxed:?}")), ("x", format!("{:?}", "x")));
    assert_eq!(tree::Box::from("x"), boxed);
    assert_eq!(boxed.into_inner(), "x");
}

/// What readers borrow, and why something can't be read or written, is handed to other threads.
#[test]
fn what_is_read_is_shared_by_threads() {
    fn are_shared<T: Send + Sync>() {}
    fn are_errors<T: Error + Send + Sync + Copy + 'static>() {}
    macro_rules! all {
        ($call:ident: $($ty:ty)*) => { $($call::<$ty>();)* };
    }
    all! { are_errors:
        wenc::Error ReadError UnknownSectionId scope::ScopeFault
    }
    all! { are_shared:
        tree::Node tree::Child tree::Fields tree::List tree::Scopes tree::IndexCounts
        scope::Definitions scope::Meaning
        Sections SectionReader Items Item Walk CountedWalk Step Unread OutOfRange CoreSections
        CoreSection CoreItems CoreItem view::CoreItemView DebugNames NamesReader ProducersReader
        Listing view::ItemView
        view::ComponentDecls view::InstanceDecls view::ListOf<u32> ItemTree Command tree::Built
        Cause Part Format Found First Unsupported
    }
}
