//! Types with declarations, and core types, by the calls for C.

use crate::called::{self, Done, called, called_with, pairs};
use crate::edges::{Held, done, named, written};
use crate::numbers::{core_value, field, reference};
use std::ptr;
use wenc::tree::{
    AliasTree, ComponentDecl, CoreCompositeType, CoreEntityType, CoreSubType, CoreTypeTree,
    GroupTree, InstanceDecl, ModuleDecl, Space,
};
use wenc_calls::refuse::calmly;
use wenc_capi::arguments::{Entity, Flag, Pair, Subtype};
use wenc_capi::component_types::wenc_type;
use wenc_capi::core_types::*;
use wenc_capi::items::wenc_alias_outer;
use wenc_capi::life::{wenc_count, wenc_len};
use wenc_capi::{Handle, Status};

/// A type, with the expected counts of its declarations.
struct Types {
    held: Held,
    /// The spaces that it counts.
    spaces: &'static [Space],
    counts: [u32; 13],
    len: usize,
}

impl Types {
    fn new(kind: u32, spaces: &'static [Space]) -> Self {
        Self { held: calmly(|| Held::types(kind)), spaces, counts: [0; 13], len: 0 }
    }

    /// Declares something, and compares the index that is written: 0 if such items aren't counted.
    fn add(&mut self, space: Space, declare: impl Fn(*mut Handle) -> Done) -> Result<(), Status> {
        let (at, count) = (self.held.at(), &mut self.counts[space.number()]);
        let answer = declare(at);
        if answer.is_err() {
            // Nothing was declared, and the call succeeds when it is repeated.
            assert_eq!(calmly(|| declare(at)), Ok(*count));
        }
        assert_eq!(answer?, *count);
        *count += u32::from(self.spaces.contains(&space));
        self.len += 1;
        Ok(())
    }

    /// The type counts its declarations. A module type has no total.
    fn finished(mut self) -> Held {
        let at = self.held.at();
        for space in Space::ALL {
            let (number, is_counted) = (space.number(), self.spaces.contains(&space));
            let expected = is_counted.then_some(self.counts[number]).ok_or(Status::BadArgument);
            assert_eq!(called!(wenc_count(at, number as u32)), expected);
        }
        if self.spaces.len() > 1 {
            assert_eq!(written(|to| unsafe { wenc_len(at, to) }), Ok(self.len));
        }
        self.held
    }
}

const COUNTED: &[Space] = &[Space::CoreTypes, Space::Types, Space::Instances];

pub fn component(declared: &[ComponentDecl]) -> Result<Held, Status> {
    let mut types = Types::new(4, COUNTED);
    for declaration in declared {
        match declaration {
            ComponentDecl::Import { name, ty } => {
                types.add(ty.kind().into(), |at| called::import(at, name, *ty))?;
            }
            ComponentDecl::Decl(declaration) => in_instance(&mut types, declaration)?,
        }
    }
    Ok(types.finished())
}

pub fn instance(declared: &[InstanceDecl]) -> Result<Held, Status> {
    let mut types = Types::new(5, COUNTED);
    declared.iter().try_for_each(|declaration| in_instance(&mut types, declaration))?;
    Ok(types.finished())
}

fn in_instance(types: &mut Types, declaration: &InstanceDecl) -> Result<(), Status> {
    match declaration {
        InstanceDecl::CoreType(ty) => types.add(Space::CoreTypes, |at| core_type(at, &None, ty)),
        InstanceDecl::Type(ty) => types.add(Space::Types, |at| called::ty(at, &None, ty)),
        InstanceDecl::Alias(alias) => {
            let space = match alias {
                AliasTree::InstanceExport { kind, .. } => (*kind).into(),
                AliasTree::CoreInstanceExport { kind, .. } => (*kind).into(),
                AliasTree::Outer { kind, .. } => (*kind).into(),
            };
            types.add(space, |at| called::alias(at, &None, alias))
        }
        InstanceDecl::Export { name, ty } => {
            types.add(ty.kind().into(), |at| called::type_export(at, name, *ty))
        }
    }
}

fn module(declared: &[ModuleDecl]) -> Result<Held, Status> {
    let mut types = Types::new(0, &[Space::CoreTypes]);
    for declaration in declared {
        match declaration {
            ModuleDecl::Import { module, name, ty } => {
                let [from, name] = [module, name].map(|name| named(name));
                let (at, ty) = (types.held.at(), &entity(ty));
                done(unsafe {
                    wenc_core_type_import(at, from.at, from.len, name.at, name.len, ty)
                })?;
            }
            ModuleDecl::Export { name, ty } => {
                let (at, name, ty) = (types.held.at(), named(name), &entity(ty));
                done(unsafe { wenc_core_type_export(at, name.at, name.len, ty) })?;
            }
            ModuleDecl::Type(ty) => types.add(Space::CoreTypes, |at| group(at, &None, ty))?,
            ModuleDecl::Alias { count, index } => types.add(Space::CoreTypes, |at| {
                called!(wenc_alias_outer(at, ptr::null(), 1, *count, *index))
            })?,
        }
    }
    Ok(types.finished())
}

/// Fields that aren't used have arbitrary values.
fn entity(ty: &CoreEntityType) -> Entity {
    let [no, yes] = [Flag(0), Flag(1)];
    let flag = |is_set| if is_set { Flag(2) } else { no };
    let all = Entity {
        minimum: 71,
        maximum: 72,
        kind: 0,
        ty: 73,
        index: 74,
        has_maximum: no,
        is_long: yes,
        is_shared: yes,
    };
    let limits = |minimum, maximum: Option<u64>, long| Entity {
        minimum,
        maximum: maximum.unwrap_or(72),
        has_maximum: flag(maximum.is_some()),
        is_long: flag(long),
        ..all
    };
    match *ty {
        CoreEntityType::Function(ty) => Entity { ty, ..all },
        CoreEntityType::Table(of) => {
            let (ty, index) = reference(of.element_type);
            Entity { kind: 1, ty, index, ..limits(of.minimum, of.maximum, of.table64) }
        }
        CoreEntityType::Memory(ty) => {
            let all = limits(ty.minimum, ty.maximum, ty.memory64);
            Entity { kind: 2, is_shared: flag(ty.shared), ..all }
        }
        CoreEntityType::Global(of) => {
            let (ty, index) = core_value(of.val_type);
            Entity { kind: 3, ty: ty + if of.mutable { 512 } else { 0 }, index, ..all }
        }
        CoreEntityType::Tag(ty) => Entity { kind: 4, ty: ty.func_type_idx, ..all },
    }
}

pub fn core_type(handle: *mut Handle, debug_name: &Option<String>, ty: &CoreTypeTree) -> Done {
    match ty {
        CoreTypeTree::Group(ty) => group(handle, debug_name, ty),
        CoreTypeTree::Module(declared) => {
            let mut types = module(declared)?;
            called_with!(wenc_type(handle, debug_name, types.at()))
        }
    }
}

/// A type with the lists that C points to.
struct Listed {
    subtype: Subtype,
    _lists: [Vec<Pair>; 2],
}

fn listed(ty: &CoreSubType) -> Listed {
    let (kind, lists) = match &ty.composite_type {
        CoreCompositeType::Func(ty) => {
            let values = [ty.params(), ty.results()];
            (1, values.map(|types| pairs(types.iter().map(|ty| core_value(*ty)))))
        }
        CoreCompositeType::Struct(ty) => {
            (2, [pairs(ty.fields.iter().map(|of| field(*of))), vec![]])
        }
        CoreCompositeType::Array(ty) => (3, [pairs([field(ty.0)].into_iter()), vec![]]),
    };
    let subtype = Subtype {
        fields: lists[0].as_ptr(),
        fields_len: lists[0].len(),
        results: lists[1].as_ptr(),
        results_len: lists[1].len(),
        kind,
        supertype: ty.supertype_idx.unwrap_or(75),
        has_supertype: Flag(ty.supertype_idx.is_some().into()),
        is_final: Flag(ty.is_final.into()),
    };
    Listed { subtype, _lists: lists }
}

fn group(handle: *mut Handle, debug_name: &Option<String>, ty: &GroupTree) -> Done {
    match ty {
        GroupTree::Rec(types) => {
            let all: Vec<_> = calmly(|| types.iter().map(listed).collect());
            let types: Vec<_> = calmly(|| all.iter().map(|of| of.subtype).collect());
            called_with!(wenc_core_type_group(handle, debug_name, types.as_ptr(), types.len()))
        }
        GroupTree::Sub(ty) => {
            let Listed { subtype, _lists: [one, two] } = &listed(ty);
            let (at, len) = (one.as_ptr(), one.len());
            // The calls for types without a supertype and without subtypes.
            let is_plain = ty.is_final && ty.supertype_idx.is_none();
            match (is_plain, &ty.composite_type) {
                (true, CoreCompositeType::Func(_)) => called_with!(wenc_core_type_function(
                    handle,
                    debug_name,
                    at,
                    len,
                    two.as_ptr(),
                    two.len()
                )),
                (true, CoreCompositeType::Struct(_)) => {
                    called_with!(wenc_core_type_struct(handle, debug_name, at, len))
                }
                (true, CoreCompositeType::Array(ty)) => {
                    let (element, of) = field(ty.0);
                    called_with!(wenc_core_type_array(handle, debug_name, element, of))
                }
                _ => called_with!(wenc_core_type_subtype(handle, debug_name, subtype)),
            }
        }
    }
}
