//! Instance types and component types, which declare the items of other rows.

use crate::bytes;
use crate::call::{Build, ByHand, Call, Seen, Types};
use crate::refuse::calmly;
use crate::size::{Size, times};
use std::rc::Rc;
use wenc::tree::{Command, ComponentDecl, InstanceDecl, Scope, Space, TypeTree};
use wenc::{ComponentTypeEncoder, Error};

/// The index as it is seen from outside of the type.
fn around((space, scope, index): Seen) -> Seen {
    let scope = match scope {
        Scope::Component(0) => Scope::Type(1),
        Scope::Component(count) => Scope::Component(count - 1),
        Scope::Type(depth) => Scope::Type(depth + 1),
    };
    (space, scope, index)
}

/// The declarations of a command's item, each with its first byte.
pub fn declarations(command: Command) -> Vec<(u8, ComponentDecl)> {
    let decl = |lead, decl| vec![(lead, ComponentDecl::Decl(decl))];
    match command {
        Command::CoreType { ty, .. } => decl(0x00, InstanceDecl::CoreType((*ty).clone())),
        Command::Type { ty, .. } => decl(0x01, InstanceDecl::Type(ty)),
        Command::Alias { alias, .. } => decl(0x02, InstanceDecl::Alias(alias)),
        Command::Import { name, ty } => {
            let export = decl(0x04, InstanceDecl::Export { name: name.clone(), ty });
            [vec![(0x03, ComponentDecl::Import { name, ty })], export].concat()
        }
        _ => vec![],
    }
}

fn in_instance(declaration: ComponentDecl) -> InstanceDecl {
    let ComponentDecl::Decl(declaration) = declaration else {
        unreachable!("an instance type has no import")
    };
    declaration
}

/// A type that declares the item of a row by one of its calls.
struct Of {
    call: Call,
    way: usize,
    is_instance: bool,
}

impl Of {
    fn times(&self, a: &Size) -> usize {
        times(a, &(self.call.bytes)(a))
    }

    fn types(&self, a: &Size) -> Types {
        let (_, declare) = &self.call.declares[self.way];
        calmly(|| {
            let mut types = Types::default();
            (0..self.times(a)).for_each(|_| declare(&mut types, a).expect("there is memory"));
            types
        })
    }

    fn write(&self, ty: ComponentTypeEncoder<'_>, a: &Size) -> Result<(), Error> {
        let types = self.types(a);
        if self.is_instance {
            ty.try_instance(&types.instance)
        } else {
            ty.try_component(&types.component)
        }
    }

    fn tree(&self, a: &Size) -> TypeTree {
        calmly(|| {
            let (lead, _) = self.call.declares[self.way];
            let declared = || {
                let mut all = declarations((self.call.command)(None, a)).into_iter();
                all.find(|(of, _)| *of == lead).expect("it is declared").1
            };
            if self.is_instance {
                TypeTree::Instance((0..self.times(a)).map(|_| in_instance(declared())).collect())
            } else {
                TypeTree::Component((0..self.times(a)).map(|_| declared()).collect())
            }
        })
    }

    fn bytes(&self, a: &Size) -> Vec<u8> {
        let (lead, _) = self.call.declares[self.way];
        let declared = bytes![i32::from(lead), (self.call.bytes)(a)];
        let declared = crate::format::list(vec![declared; self.times(a)].into_iter());
        bytes![if self.is_instance { 0x42 } else { 0x41 }, declared]
    }

    fn indices(&self, a: &Size) -> Vec<Seen> {
        let seen = (self.call.indices)(a).into_iter().map(around);
        seen.collect::<Vec<_>>().repeat(self.times(a))
    }
}

/// A closure with a type of its own.
macro_rules! with {
    (|$of:ident $(, $arg:ident)*| $call:expr) => {{
        let $of = Rc::clone($of);
        Box::new(move |$($arg),*| $call)
    }};
}

/// The calls of a builder that take such a type.
fn builds(of: &Rc<Of>) -> Vec<Build> {
    vec![
        with!(|of, b, name, a| {
            let (index, ty) = b.try_ty(name)?;
            of.write(ty, a).map(|()| index)
        }),
        with!(|of, b, name, a| {
            let types = of.types(a);
            if of.is_instance {
                b.try_type_instance(name, &types.instance)
            } else {
                b.try_type_component(name, &types.component)
            }
        }),
    ]
}

/// The calls of a section that take such a type.
fn hands(of: &Rc<Of>) -> Vec<ByHand> {
    vec![
        with!(|of, hand, a| of.write(hand.types.try_ty()?, a)),
        with!(|of, hand, a| hand.types.try_ty()?.try_tree(&of.tree(a))),
        with!(|of, hand, a| {
            let types = of.types(a);
            if of.is_instance {
                hand.types.try_instance(&types.instance).map(|_| ())
            } else {
                hand.types.try_component(&types.component).map(|_| ())
            }
        }),
    ]
}

/// The row of such a type, by each call that takes one.
fn row(call: Call, way: usize) -> Call {
    let name = call.name.clone();
    let mut of = Of { call, way, is_instance: false };
    of.is_instance = !of.types(&Size::small(1)).instance.is_empty();
    let kind = if of.is_instance { "instance" } else { "component" };
    let of = &Rc::new(of);
    Call {
        name: format!("{kind} type with {name}"),
        id: 7,
        space: Some(Space::Types),
        takes: 1,
        own: None,
        builds: builds(of),
        hands: hands(of),
        declares: vec![
            (0x01, with!(|of, types, a| of.write(types.component.try_ty()?, a))),
            (0x01, with!(|of, types, a| of.write(types.instance.try_ty()?, a))),
        ],
        members: vec![],
        command: with!(|of, debug_name, a| Command::Type { debug_name, ty: of.tree(a) }),
        indices: with!(|of, a| of.indices(a)),
        bytes: with!(|of, a| of.bytes(a)),
    }
}

/// The rows whose items are declared here, each with one of its calls.
fn declared() -> Vec<(Call, usize)> {
    let values = super::type_definitions::calls().into_iter();
    let values = values.filter(|call| ["record", "own", "function"].contains(&&*call.name));
    let items = super::items::calls().into_iter().filter(|call| !call.declares.is_empty());
    let core = super::core_types::calls().into_iter();
    let core = core.filter(|call| call.name.starts_with("open") || call.name.contains("an alias"));
    let all = values.chain(items).chain(core).enumerate();
    all.map(|(at, call)| {
        let way = at % call.declares.len();
        (call, way)
    })
    .collect()
}

pub fn calls() -> Vec<Call> {
    let rows = || declared().into_iter().map(|(call, way)| row(call, way));
    let is_scope = |call: &Call| call.name.contains("outer") || call.name.contains("an alias");
    let nested = rows().filter(is_scope).map(|call| row(call, 1));
    let deep = rows().filter(is_scope).map(|call| row(row(call, 0), 1));
    rows().chain(nested).chain(deep).collect()
}
