//! Names and types that panic when they are converted, in calls without an iterator: afterwards the
//! receiver is unchanged, or unfinished. `calls` has iterators that panic.

use crate::panics;
use crate::refused::NAME;
use wenc::*;

/// A value that is converted, or panics when it is.
#[derive(Clone, Copy)]
enum Given {
    Fine,
    Panics,
}

impl Given {
    fn name(self) -> &'static str {
        match self {
            Self::Fine => "fine",
            Self::Panics => panic!("this is no name"),
        }
    }
}

impl From<Given> for ComponentValType {
    fn from(given: Given) -> Self {
        match given {
            Given::Fine => Self::Primitive(PrimitiveValType::U8),
            Given::Panics => panic!("this is no type"),
        }
    }
}

impl From<Given> for ComponentExternName<'_> {
    fn from(given: Given) -> Self {
        given.name().into()
    }
}

impl AsRef<str> for Given {
    fn as_ref(&self) -> &str {
        self.name()
    }
}

/// What `into_iter` panics on.
struct NoIterator<T>(Option<T>);

impl<T> IntoIterator for NoIterator<T> {
    type Item = T;
    type IntoIter = std::vec::IntoIter<T>;

    fn into_iter(self) -> Self::IntoIter {
        panic!("it has no iterator")
    }
}

const NO_OPTIONS: NoIterator<CanonicalOption> = NoIterator(None);
const NO_PARAMS: NoIterator<(&str, Given)> = NoIterator(None);
const FUNC: ComponentExportKind = ComponentExportKind::Func;
const OF_FUNC: ComponentTypeRef = ComponentTypeRef::Func(0);
/// Lists of which the second member panics.
const FIELDS: [(&str, Given); 2] = [("a", Given::Fine), ("b", Given::Panics)];
const ITEMS: [(Given, ComponentExportKind, u32); 2] =
    [(Given::Fine, FUNC, 0), (Given::Panics, FUNC, 1)];

/// A builder with an open section. A type was given up before its first one.
fn builder() -> ComponentBuilder {
    let mut b = ComponentBuilder::default();
    drop(b.type_defined(Some("t")));
    assert!(b.discard_unfinished());
    b.alias_export(0, "t", ComponentExportKind::Type);
    b.import(NAME, OF_FUNC);
    b.task_cancel();
    b
}

/// The builder is unchanged, and can be used further.
fn goes_on(mut b: ComponentBuilder) {
    let mut wanted = builder();
    for b in [&mut b, &mut wanted] {
        assert!(b.is_finished() && !b.discard_unfinished());
        assert_eq!((b.task_cancel(), b.type_count()), (1, 1));
        b.append_names();
    }
    assert_eq!(b.finish(), wanted.finish());
}

type Call = fn(&mut ComponentBuilder);

/// Calls that write before they convert the last.
const BEGIN: [Call; 12] = [
    |b| b.type_defined(Some("t")).1.record(FIELDS),
    |b| _ = b.type_defined(Some("t")).1.try_record(FIELDS),
    |b| b.ty(Some("t")).1.defined_type().tuple([Given::Fine, Given::Panics]),
    |b| b.type_defined(Some("t")).1.list(Given::Panics),
    |b| b.type_defined(Some("t")).1.option(Given::Panics),
    |b| b.type_defined(Some("t")).1.map(Given::Panics, Given::Fine),
    |b| b.type_defined(Some("t")).1.map(Given::Fine, Given::Panics),
    |b| b.type_defined(Some("t")).1.fixed_length_list(Given::Panics, 4),
    |b| _ = b.type_function(Some("t")).1.params(FIELDS),
    |b| _ = b.type_function(Some("t")).1.async_(true).params(FIELDS),
    |b| _ = b.instantiate_exports(Some("t"), ITEMS),
    |b| _ = b.instantiate(Some("t"), 0, ITEMS),
];

/// Calls that convert first.
const CONVERT: [Call; 5] = [
    |b| _ = b.import(Given::Panics, OF_FUNC),
    |b| _ = b.try_import(Given::Panics, OF_FUNC),
    |b| _ = b.export(Given::Panics, FUNC, 0, None),
    |b| _ = b.lift_func(Some("t"), 0, 0, NO_OPTIONS),
    |b| _ = b.error_context_debug_message(NO_OPTIONS),
];

#[test]
fn builders() {
    for call in BEGIN {
        let mut b = builder();
        assert!(panics(|| call(&mut b)));
        assert_eq!((b.is_finished(), b.try_task_cancel()), (false, Err(Error::Unfinished)));
        assert!(b.discard_unfinished());
        goes_on(b);
    }
    for call in CONVERT {
        let mut b = builder();
        assert!(panics(|| call(&mut b)));
        goes_on(b);
    }
}

/// Some parameters may have been written, so no call ends the type. If none were, the call can be
/// repeated.
#[test]
fn parameters() {
    let mut b = builder();
    let (_, mut ty) = b.type_function(Some("f"));
    assert!(panics(|| _ = ty.params(FIELDS)));
    assert_eq!(ty.try_async(true).err(), Some(Error::OutOfTurn));
    assert_eq!(ty.try_params([FIELDS[0]]).err(), Some(Error::OutOfTurn));
    assert_eq!(ty.try_result(None).err(), Some(Error::OutOfTurn));
    assert!(!b.is_finished() && b.discard_unfinished());
    let (_, mut ty) = b.type_function(Some("f"));
    assert!(panics(|| _ = ty.async_(true).params(NO_PARAMS)));
    ty.params([FIELDS[0]]).result(None);
    let mut wanted = builder();
    wanted.type_function(None).1.async_(true).params([FIELDS[0]]).result(None);
    assert_eq!(b.finish(), wanted.finish());
}

/// After each call, which panics, the section or type is unchanged and accepts an item.
fn leave_it<S: Clone + Default + PartialEq>(calls: &[fn(&mut S)], add: fn(&mut S)) {
    for call in calls {
        let mut section = S::default();
        for _ in 0..2 {
            let before = section.clone();
            assert!(panics(|| call(&mut section)));
            assert!(section == before);
            add(&mut section);
            assert!(section != before);
        }
        let mut wanted = S::default();
        (0..2).for_each(|_| add(&mut wanted));
        assert!(section == wanted);
    }
}

#[test]
fn sections_and_types_by_hand() {
    use {ComponentInstanceSection as Instances, InstanceSection as CoreInstances};
    const ARGS: [(Given, ModuleArg); 2] =
        [(Given::Fine, ModuleArg::Instance(0)), (Given::Panics, ModuleArg::Instance(1))];
    const EXPORTS: [(Given, ExportKind, u32); 2] =
        [(Given::Fine, ExportKind::Func, 0), (Given::Panics, ExportKind::Func, 1)];
    leave_it::<CoreInstances>(
        &[
            |to| _ = to.instantiate(0, ARGS),
            |to| _ = to.try_instantiate(0, ARGS),
            |to| _ = to.export_items(EXPORTS),
        ],
        |to| _ = to.export_items([("a", ExportKind::Func, 0)]),
    );
    leave_it::<Instances>(
        &[
            |to| _ = to.instantiate(0, ITEMS),
            |to| _ = to.try_instantiate(0, ITEMS),
            |to| _ = to.export_items(ITEMS),
        ],
        |to| _ = to.export_items([("a", FUNC, 0)]),
    );
    leave_it::<CanonicalFunctionSection>(
        &[|to| _ = to.lower(0, NO_OPTIONS), |to| _ = to.error_context_new(NO_OPTIONS)],
        |to| _ = to.lower(0, []),
    );
    leave_it::<ComponentImportSection>(&[|to| _ = to.import(Given::Panics, OF_FUNC)], |to| {
        _ = to.import("a", OF_FUNC)
    });
    leave_it::<ComponentExportSection>(&[|to| _ = to.export(Given::Panics, FUNC, 0, None)], |to| {
        _ = to.export("a", FUNC, 0, None)
    });
    leave_it::<InstanceType>(&[|to| _ = to.export(Given::Panics, OF_FUNC)], |to| {
        _ = to.export("a", OF_FUNC)
    });
    leave_it::<ComponentType>(&[|to| _ = to.import(Given::Panics, OF_FUNC)], |to| {
        _ = to.import("a", OF_FUNC)
    });
}
