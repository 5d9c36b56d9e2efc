//! Components, types with declarations, modules and names: each allocation of what adds to them,
//! and of their copies, fails in turn.

use super::refusing::Refusing;
use super::sweeping::{TEXT, refused_in_turn, sweep_encode};
use crate::proved::wenc_base::{Module, RawCustomSection};
use crate::proved::wenc_parts::{Component, ComponentExternName};
use crate::proved::wenc_types::{ComponentType, InstanceType, ModuleType};
use crate::shim::borrow::CowStr;
use crate::shim::string::{String, StringUsing};

/// After up to eight sections of one byte, growth is needed at each place.
#[test]
fn components_are_swept() {
    let heap = Refusing::new();
    let (_, requests) = refused_in_turn(heap, || Component::new(heap));
    let mut growths = 0;
    for (count, body) in (0..9).flat_map(|count| [(count, &[][..]), (count, TEXT)]) {
        let mut component = Component::new(heap).unwrap();
        (0..count).for_each(|_| component.section(&RawCustomSection(&[])).unwrap());
        let before = component.as_slice().to_vec();
        let (copy, copies) = refused_in_turn(heap, || component.try_clone());
        let ((), more) = refused_in_turn(heap, || {
            let outcome = component.section(&RawCustomSection(body));
            assert!(outcome.is_ok() || component.as_slice() == before);
            outcome
        });
        assert_eq!(component.as_slice(), [&before, &[0][..], body].concat());
        assert_eq!((copy.as_slice(), copies), (&before[..], 1));
        growths += more;
    }
    assert!(requests > 0 && growths > 0);
}

/// Types with declarations, and how one is added.
macro_rules! are_swept {
    ($heap:ident $($ty:ident |$of:ident| $add:expr;)*) => {$(
        for count in 0..9 {
            let mut $of = $ty::new($heap);
            (0..count).for_each(|_| $add.unwrap());
            let (mut copy, requests) = refused_in_turn($heap, || $of.try_clone());
            assert_eq!((requests > 0, copy.type_count()), (count > 0, count));
            assert_eq!(sweep_encode(&copy), sweep_encode(&$of));
            let $of = &mut copy;
            $add.unwrap();
            assert_eq!(copy.type_count(), count + 1);
        }
    )*};
}

#[test]
fn types_with_declarations_are_swept() {
    let heap = Refusing::new();
    are_swept! { heap
        ComponentType |ty| ty.ty().and_then(|ty| ty.defined_type().own(0));
        InstanceType |ty| ty.ty().and_then(|ty| ty.defined_type().own(0));
        ModuleType |ty| ty.alias_outer_core_type(0, 0);
    }
}

#[test]
fn copies_of_modules_and_names_are_swept() {
    let heap = Refusing::new();
    let mut module = Module::new(heap).unwrap();
    module.section(&RawCustomSection(TEXT)).unwrap();
    let (copy, requests) = refused_in_turn(heap, || module.try_clone());
    assert_eq!((copy.as_slice(), requests), (module.as_slice(), 1));

    let text = |text| Some(CowStr::Owned(String::from_str(heap, text).unwrap()));
    let name = ComponentExternName {
        name: CowStr::Borrowed("a"),
        implements: text("b"),
        version_suffix: None,
        external_id: text("c"),
    };
    let (copy, requests) = refused_in_turn(heap, || name.try_clone());
    assert_eq!((sweep_encode(&copy), requests), (sweep_encode(&name), 2));
}
