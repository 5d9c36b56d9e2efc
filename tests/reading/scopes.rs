//! Indices in types within types, and those of references in the core: what the table of calls
//! doesn't have.

use super::{Seen, expect, here, name, text};
use wenc::tree::{
    AliasTree, CanonTree, ComponentDecl, CoreEntityType, CoreHeapType, CoreRefType, CoreTypeTree,
    CoreValType, InstanceDecl, ItemTree, ModuleDecl, Scope, Space, TypeTree,
};
use wenc::{ComponentOuterAliasKind as OuterKind, ComponentTypeRef as Ref};

/// A reference to the core type 5.
const OWN: CoreValType =
    CoreValType::Ref(CoreRefType { nullable: true, heap_type: CoreHeapType::Concrete(5) });

#[test]
fn references() {
    let own = here(Space::CoreTypes, 5);
    expect(ItemTree::Canon(CanonTree::ContextGet { ty: OWN, slot: 6 }), &[own]);
    expect(ItemTree::Canon(CanonTree::ContextSet { ty: OWN, slot: 6 }), &[own]);
    let resource = TypeTree::Resource { rep: OWN, dtor: Some(6) };
    expect(ItemTree::Type(resource), &[own, here(Space::CoreFuncs, 6)]);
}

fn outer(kind: OuterKind, count: u32, index: u32) -> InstanceDecl {
    InstanceDecl::Alias(AliasTree::Outer { kind, count, index })
}

#[test]
fn the_furthest_scope() {
    let alias = AliasTree::Outer { kind: OuterKind::Type, count: u32::MAX, index: 7 };
    expect(ItemTree::Alias(alias), &[(Space::Types, Scope::Component(u32::MAX), 7)]);
    let decl = outer(OuterKind::Type, u32::MAX, 8);
    let seen = (Space::Types, Scope::Component(u32::MAX - 1), 8);
    expect(ItemTree::Type(TypeTree::Instance([decl.clone()].into())), &[seen]);
    let component = TypeTree::Component([ComponentDecl::Decl(decl)].into());
    expect(ItemTree::Type(component), &[seen]);
}

/// The type of a module that an instance type declares: its own types are two types in.
#[test]
fn modules_in_instances() {
    let of_module = ModuleDecl::Export { name: text("c"), ty: CoreEntityType::Function(3) };
    let alias = |count| ModuleDecl::Alias { count, index: 5 };
    let decls = [alias(0), alias(1), alias(2), alias(3), of_module];
    let decl = InstanceDecl::CoreType(CoreTypeTree::Module(decls.into()));
    let scopes =
        [Scope::Type(2), Scope::Type(1), Scope::Component(0), Scope::Component(1), Scope::Type(2)];
    let indices = scopes.into_iter().zip([5, 5, 5, 5, 3]);
    let indices = indices.map(|(scope, index)| (Space::CoreTypes, scope, index));
    let tree = TypeTree::Instance([decl].into());
    expect(ItemTree::Type(tree), &indices.collect::<Vec<Seen>>());
}

/// A type in a type in a type, followed by declarations of the outer ones.
#[test]
fn each_type_is_a_scope() {
    let export = |index| InstanceDecl::Export { name: name("e"), ty: Ref::Func(index) };
    let innermost = [
        outer(OuterKind::Type, 0, 10),
        outer(OuterKind::CoreType, 1, 11),
        outer(OuterKind::CoreModule, 2, 12),
        outer(OuterKind::Component, 3, 13),
        outer(OuterKind::Type, 4, 14),
        export(15),
    ];
    let middle = [
        ComponentDecl::Decl(InstanceDecl::Type(TypeTree::Instance(innermost.into()))),
        ComponentDecl::Import { name: name("i"), ty: Ref::Component(16) },
    ];
    let outermost = [InstanceDecl::Type(TypeTree::Component(middle.into())), export(17)];
    let indices = [
        (Space::Types, Scope::Type(3), 10),
        (Space::CoreTypes, Scope::Type(2), 11),
        (Space::CoreModules, Scope::Type(1), 12),
        (Space::Components, Scope::Component(0), 13),
        (Space::Types, Scope::Component(1), 14),
        (Space::Types, Scope::Type(3), 15),
        (Space::Types, Scope::Type(2), 16),
        (Space::Types, Scope::Type(1), 17),
    ];
    expect(ItemTree::Type(TypeTree::Instance(outermost.into())), &indices);
}
