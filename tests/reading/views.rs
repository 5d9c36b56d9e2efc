//! Items that borrow from a component's bytes: copies of their parts, their lists, comparisons.
//! `calls` reads each item.

use crate::component;
use std::collections::HashSet;
use std::fmt::Debug;
use wenc::view::{
    ComponentDeclView, CoreTypeView, DefinedView, GroupView, InstanceDeclView, InstanceView,
    ItemView, NameView, TypeView,
};
use wenc::*;
use wenc_calls::encoded::encoded;

/// The number in LEB128.
fn number(number: usize) -> Vec<u8> {
    encoded(&u32::try_from(number).expect("it is short"))
}

/// A component with one section.
fn alone(id: u8, content: &[u8]) -> Vec<u8> {
    component(&[&[id], &number(content.len())[..], content].concat())
}

/// Calls this with the item of a section with this content.
#[track_caller]
fn with(id: u8, content: &[u8], check: impl Fn(ItemView<'_>)) {
    let bytes = alone(id, content);
    let items: Result<Vec<_>, _> = Sections::new(&bytes).expect("a component").items().collect();
    let items = items.unwrap_or_else(|fault| panic!("{content:x?}: {fault}"));
    let [Item { range, view, .. }] = &items[..] else { panic!("{content:x?}: not one item") };
    assert_eq!(range.end, bytes.len());
    check(*view);
}

/// The members of a list are these.
#[track_caller]
fn are<T: PartialEq + Debug>(list: impl Iterator<Item = T>, wanted: impl AsRef<[T]>) {
    assert_eq!(list.collect::<Vec<_>>(), wanted.as_ref());
}

/// A name without options.
fn plain(name: &str) -> NameView<'_> {
    NameView { name, implements: None, version_suffix: None, external_id: None }
}

/// Sections of one item, by their ids and contents.
const EACH: &[(u8, &[u8])] = &[
    (2, b"\x01\0\x05\x02\x01a\x12\x03\x01b\x12\x04"),
    (3, b"\x01\x4e\x02\x50\x01\x07\x5e\x78\x01\x5f\x02\x7f\0\x77\x01"),
    (3, b"\x01\x50\x04\0\x01m\x01f\0\x02\x01\x60\0\0\x02\x10\x01\x01\x09\x03\x01g\0\0"),
    (4, b"\0asm\x0d\0\x01\0"),
    (5, b"\x01\x01\x02\0\x01f\x01\0\x02\x01g\x01\x01\x01x\x03\x01"),
    (7, b"\x01\x71\x02\x01a\0\0\x01b\x01\x7d\0"),
    (7, b"\x01\x6e\x02\x01a\x01b"),
    (7, b"\x01\x42\x02\x02\x03\x02\x01\x07\x04\0\x01f\x01\0"),
    (8, b"\x01\0\0\x01\x02\0\x03\x04\x05"),
    (9, b"\x07\x02\x01\x02\x03"),
    (10, b"\x01\x02\x01f\x02\0\x01x\x02\x01y\x05\x03"),
    (11, b"\x01\0\x01g\x01\x05\x01\x01\x06"),
];

/// Calls this with an item of `EACH`.
#[track_caller]
fn each(at: usize, check: impl Fn(ItemView<'_>)) {
    let (id, content) = EACH[at];
    with(id, content, check);
}

/// A copy is encoded as these bytes.
#[track_caller]
fn is_copy<T: Encode>(copy: T, wanted: &[u8]) {
    assert_eq!(encoded(&copy), wanted);
}

#[test]
fn items_and_their_parts_are_copied() {
    for (id, content) in EACH {
        let whole = &content[1..];
        with(*id, content, |item| match item {
            ItemView::CoreInstance(instance) => is_copy(instance.to_tree(), whole),
            ItemView::CoreType(ty) => {
                is_copy(ty.to_tree(), whole);
                match ty {
                    CoreTypeView::Group(group) => {
                        is_copy(group.to_tree(), whole);
                        let GroupView::Rec(mut types) = group else { panic!("{group:?}") };
                        let sub = types.next().expect("it is there");
                        is_copy(sub.to_tree(), &whole[2..8]);
                        is_copy(sub.composite_type.to_tree(), &whole[5..8]);
                    }
                    CoreTypeView::Module(mut decls) => {
                        is_copy(decls.next().expect("it is there").to_tree(), &whole[2..9]);
                    }
                }
            }
            ItemView::Instance(instance) => is_copy(instance.to_tree(), whole),
            ItemView::Type(ty) => {
                is_copy(ty.to_tree(), whole);
                if let TypeView::Defined(ty @ DefinedView::Variant(cases)) = ty {
                    is_copy(ty.to_tree(), whole);
                    is_copy(cases.last().expect("it is there").to_tree(), &whole[6..]);
                }
            }
            ItemView::Canon(canon) => is_copy(canon.to_tree(), whole),
            ItemView::Import { name, .. } => is_copy(name.to_tree(), &whole[..10]),
            ItemView::Export { name, .. } => is_copy(name.to_tree(), &whole[..3]),
            item => assert!(matches!(item, ItemView::Component(_) | ItemView::Start { .. })),
        });
    }
}

/// A list has all of its members if their count has one byte, two and three.
#[test]
fn lists_are_as_long_as_they_say() {
    for len in [0, 1, 127, 128, 16_383, 16_384] {
        let members = |member: &[u8]| [&number(len)[..], &member.repeat(len)].concat();
        let content = [b"\x07", &members(b"\x87\x01")[..], b"\0"].concat();
        with(9, &content, |item| {
            let ItemView::Start { args, .. } = item else { panic!("{item:?}") };
            assert_eq!((args.len() as usize, args.is_empty()), (len, len == 0));
            are(args, vec![135; len]);
        });
        with(7, &[b"\x01\x42", &members(b"\x04\0\x01f\x01\0")[..]].concat(), |item| {
            let ItemView::Type(TypeView::Instance(decls)) = item else { panic!("{item:?}") };
            assert_eq!((decls.len() as usize, decls.is_empty()), (len, len == 0));
            let ty = ComponentTypeRef::Func(0);
            are(decls, vec![InstanceDeclView::Export { name: plain("f"), ty }; len]);
        });
        with(7, &[b"\x01\x41", &members(b"\x03\0\x01f\x01\0")[..]].concat(), |item| {
            let ItemView::Type(TypeView::Component(decls)) = item else { panic!("{item:?}") };
            assert_eq!((decls.len() as usize, decls.is_empty()), (len, len == 0));
            let ty = ComponentTypeRef::Func(0);
            are(decls, vec![ComponentDeclView::Import { name: plain("f"), ty }; len]);
        });
    }
}

/// What is left of a list is a list.
#[test]
fn lists_are_read_on() {
    each(9, |item| {
        let ItemView::Start { mut args, .. } = item else { panic!("{item:?}") };
        let all = args;
        assert_eq!((args.next(), args.len(), all.len()), (Some(1), 1, 2));
        assert!(args != all && !args.is_empty());
        assert_eq!((args.next(), args.next(), args.next()), (Some(2), None, None));
        assert!(args.is_empty());
        are(all, [1, 2]);
    });
}

/// A list gets shorter with each member, and returns `None` after the last, however often.
macro_rules! ends {
    ($list:expr, $len:literal) => {{
        let mut list = $list;
        for left in (0..$len).rev() {
            assert!(list.next().is_some());
            assert_eq!((list.len(), list.is_empty()), (left, left == 0));
        }
        for _ in 0..3 {
            assert!(list.next().is_none());
            assert_eq!((list.len(), list.is_empty(), list.count()), (0, true, 0));
        }
    }};
}

/// A component type, and in it an instance type and a function type. What follows their lists could
/// be a member, too.
#[test]
fn lists_end() {
    let nested = b"\x01\x42\x02\x04\0\x01f\x01\0\x04\0\x01g\x01\0\x01\x40\x02\x01ay\x01by\x01\0";
    with(7, &[b"\x01\x41\x03", &nested[..], b"\x04\0\x01h\x01\0"].concat(), |item| {
        let ItemView::Type(TypeView::Component(decls)) = item else { panic!("{item:?}") };
        ends!(decls, 3);
        for decl in decls {
            let ComponentDeclView::Decl(decl) = decl else { panic!("{decl:?}") };
            match decl {
                InstanceDeclView::Type(TypeView::Instance(decls)) => ends!(decls, 2),
                InstanceDeclView::Type(TypeView::Func { params, .. }) => ends!(params, 2),
                decl => assert!(matches!(decl, InstanceDeclView::Export { .. }), "{decl:?}"),
            }
        }
    });
}

/// Values are equal if their members are, however they are encoded.
#[test]
fn values_are_compared() {
    let mut found = HashSet::new();
    let bytes: Vec<_> = EACH.iter().map(|(id, content)| alone(*id, content)).collect();
    for bytes in &bytes {
        let mut items = Sections::new(bytes).expect("a component").items();
        let item = items.next().expect("an item").expect("it is read").view;
        assert!(found.insert(item) && found.contains(&item.clone()), "{item:?}");
    }
    assert_eq!(found.len(), EACH.len());
    with(9, b"\x87\0\x82\x80\0\x81\0\x02\x83\0", |item| assert!(found.contains(&item)));
    // another member, one fewer, one more
    with(9, b"\x07\x02\x01\x03\x03", |item| assert!(!found.contains(&item)));
    with(9, b"\x07\x01\x01\x03", |item| assert!(!found.contains(&item)));
    with(9, b"\x07\x03\x01\x02\x02\x03", |item| assert!(!found.contains(&item)));
    with(7, b"\x01\x42\x82\0\x02\x03\x02\x01\x87\0\x04\x01\x01f\x01\0", |item| {
        assert!(found.contains(&item));
    });
    with(7, b"\x01\x42\x01\x02\x03\x02\x01\x07", |item| assert!(!found.contains(&item)));
}

#[test]
fn values_are_printed() {
    let printed = |at: usize, wanted| each(at, |item| assert_eq!(format!("{item:?}"), wanted));
    printed(3, "Component([0, 97, 115, 109, 13, 0, 1, 0])");
    printed(6, "Type(Defined(Flags([\"a\", \"b\"])))");
    printed(
        7,
        "Type(Instance([Alias(Outer { kind: Type, count: 1, index: 7 }), \
         Export { name: NameView { name: \"f\", implements: None, version_suffix: None, \
         external_id: None }, ty: Func(0) }]))",
    );
    printed(9, "Start { function: 7, args: [1, 2], results: 3 }");
    with(7, b"\x01\x41\x01\x01\x71\x01\x01a\x01\x79\0", |item| {
        let list = "[CaseView { name: \"a\", ty: Some(Primitive(U32)) }]";
        let wanted = format!("Type(Component([Decl(Type(Defined(Variant({list}))))]))");
        assert_eq!(format!("{item:?}"), wanted);
    });
}

/// Lists that were read are passed to encoders as they are.
#[test]
fn lists_are_encoded_again() {
    // functions from a text to a flag, and instances of a component with an argument
    let ty = b"\x07\x08\x01\x40\x01\x01s\x73\0\x7f";
    let instance = b"\x05\x08\x01\0\0\x01\x01a\x01\0";
    let sections = [&ty[..], instance].concat();
    let read = component(&sections);
    let mut builder = ComponentBuilder::default();
    for item in Sections::new(&read).expect("a component").items() {
        match item.expect("it is read").view {
            ItemView::Type(TypeView::Func { params, result, .. }) => {
                builder.type_function(None).1.params(params).result(result);
            }
            ItemView::Instance(InstanceView::Instantiate { component, args }) => {
                builder.instantiate(None, component, args);
            }
            item => panic!("{item:?}"),
        }
    }
    assert_eq!(builder.finish(), read);
}
