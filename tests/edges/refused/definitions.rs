//! Definitions, the instances through which they are reached, and their users.

use super::reading::refused;
use super::{calmly, each_is_refused};
use crate::refuse::refusing;
use wenc::scope::{Definitions, ScopeFault};
use wenc::tree::Space;
use wenc::*;

/// A component that is instantiated twelve times with one of as many imports, and its resource.
fn component() -> Vec<u8> {
    let mut inner = ComponentBuilder::default();
    let mut ty = InstanceType::new();
    ty.export_type("r", TypeBounds::SubResource);
    let of_inner = inner.type_instance(None, &ty);
    let imported = inner.import("i", ComponentTypeRef::Instance(of_inner));
    inner.export("e", ComponentExportKind::Instance, imported, None);
    let mut outer = ComponentBuilder::default();
    let ty = outer.type_instance(None, &ty);
    let inner = outer.component(None, inner);
    for number in 0..12 {
        let import = outer.import(format!("a{number}"), ComponentTypeRef::Instance(ty));
        let arguments = [("i", ComponentExportKind::Instance, import)];
        let instance = outer.instantiate(None, inner, arguments);
        let again = outer.alias_export(instance, "e", ComponentExportKind::Instance);
        outer.alias_export(again, "r", ComponentExportKind::Type);
    }
    outer.finish()
}

fn no_memory(fault: ScopeFault) -> Error {
    assert!(matches!(fault, ScopeFault::NoMemory { .. }), "{fault}");
    Error::NoMemory
}

#[test]
fn definitions_are_read_and_followed() {
    let bytes = component();
    let found = each_is_refused(15, |refusals| {
        let definitions = refusals
            .call(|| Definitions::new(&bytes, 100).map_err(refused(Error::NoMemory.into())));
        let instances = definitions.instances();
        let (scope, mut found) = (instances.component(), calmly(Vec::new));
        for index in 1..13 {
            let of = refusals.call(|| scope.resolve(Space::Types, index).map_err(no_memory));
            let import = refusals.call(|| of.origin().map_err(no_memory)).expect("an import");
            calmly(|| found.push((of.place(), import.name().map(str::to_owned))));
        }
        for index in 0..36 {
            let of = scope.get(Space::Instances, index).expect("it is there");
            let exports = refusals.call(|| of.exports().map_err(no_memory)).expect("it has some");
            calmly(|| found.push((exports.place(), None)));
        }
        let ty = scope.get(Space::Types, 0).expect("it is there");
        let users = refusals.call(|| instances.users(ty).map_err(no_memory));
        let users = users.count();
        calmly(|| found.push((users, None)));
        found
    });
    let names = (0..12).map(|number| Some(format!("a{number}")));
    assert!(found[..12].iter().map(|(_, name)| name.clone()).eq(names));
    assert!(found[..12].iter().all(|(place, _)| *place == found[0].0));
    assert_eq!(found.last().map(|(users, _)| *users), Some(12));
}

/// Without memory nothing is known, and that is an error, too.
#[test]
fn nothing_is_known_without_memory() {
    let bytes = component();
    for n in 0.. {
        let mut errors = calmly(Vec::new);
        let read = || Definitions::past_faults(&bytes, 100, |error| calmly(|| errors.push(error)));
        let (definitions, is_refused) = refusing(n, read);
        let (instances, space) = (definitions.instances(), Space::Types);
        let scope = instances.component();
        if !is_refused {
            assert!(n > 10 && errors.is_empty() && scope.count(space) == Some(13));
            break;
        }
        assert_eq!(errors, [Error::NoMemory.into()]);
        let fault = ScopeFault::Unread { place: 0, space, unread: 0 };
        assert_eq!((scope.count(space), scope.get(space, 0)), (None, Err(fault)));
        assert_eq!(
            scope.export("e", Space::Instances),
            Err(ScopeFault::Unread { place: 0, space: Space::Instances, unread: 0 })
        );
        assert!(scope.definitions().next().is_none() && instances.at(9).is_none());
    }
}
