//! The call for C that does what a command does.

use crate::declared;
use crate::edges::{done, named};
use crate::numbers::{
    builtin, builtin_with, core_kind, core_value, kind, maybe_value, option, outer_kind, primitive,
    type_ref, value,
};
use wenc::tree::{
    AliasTree, CanonTree, Command, CoreInstanceTree, DefinedTree, InstanceTree, NameTree, TypeTree,
};
use wenc::{CanonicalOption, ComponentTypeRef, ModuleArg};
use wenc_calls::refuse::calmly;
use wenc_capi::arguments::{Flag, Name, Pair, Part, Text};
use wenc_capi::component_types::*;
use wenc_capi::items::*;
use wenc_capi::sections::wenc_custom_section;
use wenc_capi::{Handle, Status};

/// The index that a call writes, or its status.
pub type Done = Result<u32, Status>;

/// What an index is before the call.
pub const UNTOUCHED: u32 = 0xdead_beef;

/// Makes a call that writes an index.
macro_rules! called {
    ($call:ident($($arg:expr),*)) => {{
        let mut index = $crate::called::UNTOUCHED;
        match unsafe { $call($($arg,)* &mut index) } {
            Status::Done => Ok(index),
            status => {
                assert_eq!(index, $crate::called::UNTOUCHED);
                Err(status)
            }
        }
    }};
}

/// Makes a call that takes a debug name too.
macro_rules! called_with {
    ($call:ident($handle:expr, $debug_name:expr $(, $arg:expr)*)) => {{
        let text = $debug_name.as_deref().map($crate::edges::named);
        let text = text.as_ref().map_or(std::ptr::null(), std::ptr::from_ref);
        called!($call($handle, text $(, $arg)*))
    }};
}

pub(crate) use {called, called_with};

/// Members with names.
pub fn parts<'a>(members: impl Iterator<Item = (&'a String, (u32, u32))>) -> Vec<Part> {
    let part = |(name, (kind, number)): (&String, _)| {
        let name = name.as_bytes();
        Part { name: name.as_ptr(), name_len: name.len(), kind, number }
    };
    calmly(|| members.map(part).collect())
}

pub fn pairs(members: impl Iterator<Item = (u32, u32)>) -> Vec<Pair> {
    calmly(|| members.map(|(kind, number)| Pair { kind, number }).collect())
}

/// A name, if it has options.
fn with_options(name: &NameTree) -> Option<Name> {
    let options = name.options.as_ref()?;
    let option = |text: &Option<String>| text.as_deref().map_or(Text::NONE, named);
    Some(Name {
        name: named(&name.name),
        implements: option(&options.implements),
        version_suffix: option(&options.version_suffix),
        external_id: option(&options.external_id),
    })
}

pub fn import(handle: *mut Handle, name: &NameTree, ty: ComponentTypeRef) -> Done {
    let ((sort, of), text) = (type_ref(ty), named(&name.name));
    match with_options(name) {
        None => called!(wenc_import(handle, text.at, text.len, sort, of)),
        Some(name) => called!(wenc_import_named(handle, &name, sort, of)),
    }
}

pub fn type_export(handle: *mut Handle, name: &NameTree, ty: ComponentTypeRef) -> Done {
    let ((sort, of), text) = (type_ref(ty), named(&name.name));
    match with_options(name) {
        None => called!(wenc_type_export(handle, text.at, text.len, sort, of)),
        Some(name) => called!(wenc_type_export_named(handle, &name, sort, of)),
    }
}

fn export(
    handle: *mut Handle,
    name: &NameTree,
    kind: u32,
    item: u32,
    ty: Option<ComponentTypeRef>,
) -> Done {
    let ((sort, of), text) = (ty.map_or((0, 9), type_ref), named(&name.name));
    match with_options(name) {
        None => called!(wenc_export(handle, text.at, text.len, kind, item, sort, of)),
        Some(name) => called!(wenc_export_named(handle, &name, kind, item, sort, of)),
    }
}

pub fn alias(handle: *mut Handle, debug_name: &Option<String>, alias: &AliasTree) -> Done {
    match alias {
        AliasTree::InstanceExport { instance, kind: of, name } => {
            let (of, at, len) = (kind(*of), name.as_ptr(), name.len());
            // The call without a debug name has this one.
            if debug_name.as_ref() == Some(name) {
                return called!(wenc_alias_export(handle, *instance, of, at, len));
            }
            called_with!(wenc_alias_instance_export(handle, debug_name, *instance, of, at, len))
        }
        AliasTree::CoreInstanceExport { instance, kind, name } => {
            let (kind, at, len) = (core_kind(*kind), name.as_ptr(), name.len());
            called_with!(wenc_alias_core_export(handle, debug_name, *instance, kind, at, len))
        }
        AliasTree::Outer { kind, count, index } => {
            called_with!(wenc_alias_outer(handle, debug_name, outer_kind(*kind), *count, *index))
        }
    }
}

fn core_instance(
    handle: *mut Handle,
    debug_name: &Option<String>,
    instance: &CoreInstanceTree,
) -> Done {
    match instance {
        CoreInstanceTree::Instantiate { module, args } => {
            let args = parts(args.iter().map(|(name, ModuleArg::Instance(at))| (name, (99, *at))));
            let (at, len) = (args.as_ptr(), args.len());
            called_with!(wenc_core_instantiate(handle, debug_name, *module, at, len))
        }
        CoreInstanceTree::Exports(items) => {
            let item = items.iter().map(|(name, kind, item)| (name, (core_kind(*kind), *item)));
            let items = parts(item);
            called_with!(wenc_core_exports(handle, debug_name, items.as_ptr(), items.len()))
        }
    }
}

fn instance(handle: *mut Handle, debug_name: &Option<String>, instance: &InstanceTree) -> Done {
    match instance {
        InstanceTree::Instantiate { component, args } => {
            let args = parts(args.iter().map(|(name, of, item)| (name, (kind(*of), *item))));
            let (at, len) = (args.as_ptr(), args.len());
            called_with!(wenc_instantiate(handle, debug_name, *component, at, len))
        }
        InstanceTree::Exports(items) => {
            let item = items.iter().map(|(name, of, item)| (&name.name, (kind(*of), *item)));
            let items = parts(item);
            called_with!(wenc_export_items(handle, debug_name, items.as_ptr(), items.len()))
        }
    }
}

fn canon(handle: *mut Handle, debug_name: &Option<String>, canon: &CanonTree) -> Done {
    use wenc::tree::CanonOf::*;
    let pairs_of = |options: &[CanonicalOption]| pairs(options.iter().map(|of| option(*of)));
    match canon {
        Lift { core_func, ty, options } => {
            let o = pairs_of(options);
            let (at, len) = (o.as_ptr(), o.len());
            return called_with!(wenc_lift(handle, debug_name, *core_func, *ty, at, len));
        }
        Lower { func, options } => {
            let o = pairs_of(options);
            return called_with!(wenc_lower(handle, debug_name, *func, o.as_ptr(), o.len()));
        }
        TaskReturn { ty, options } => {
            let ((sort, of), o) = (maybe_value(*ty), pairs_of(options));
            return called!(wenc_task_return(handle, sort, of, o.as_ptr(), o.len()));
        }
        ContextGet { ty, slot } => {
            return called!(wenc_context(handle, 1, core_value(*ty).0, *slot));
        }
        ContextSet { ty, slot } => {
            return called!(wenc_context(handle, 2, core_value(*ty).0, *slot));
        }
        _ => {}
    }
    if let Some((number, first, options)) = builtin_with(canon) {
        let o = pairs_of(options);
        return called!(wenc_builtin_with(handle, number, first, o.as_ptr(), o.len()));
    }
    let (number, first, second) = builtin(canon).expect("it has a number");
    called!(wenc_builtin(handle, number, first, second))
}

/// Names alone: their numbers aren't used.
fn names(names: &[String]) -> Vec<Part> {
    parts(names.iter().map(|name| (name, (55, 56))))
}

/// Calls that take the same.
type Parts = unsafe extern "C" fn(*mut Handle, *const Text, *const Part, usize, *mut u32) -> Status;
type Value = unsafe extern "C" fn(*mut Handle, *const Text, u32, u32, *mut u32) -> Status;
type Two = unsafe extern "C" fn(*mut Handle, *const Text, u32, u32, u32, u32, *mut u32) -> Status;

fn defined(handle: *mut Handle, debug_name: &Option<String>, ty: &DefinedTree) -> Done {
    use DefinedTree::*;
    let of_parts = |call: Parts, members: Vec<Part>| {
        called_with!(call(handle, debug_name, members.as_ptr(), members.len()))
    };
    let of_value = |call: Value, (sort, of)| called_with!(call(handle, debug_name, sort, of));
    let of_two = |call: Two, one: (u32, u32), two: (u32, u32)| {
        called_with!(call(handle, debug_name, one.0, one.1, two.0, two.1))
    };
    match ty {
        Primitive(ty) => called_with!(wenc_type_primitive(handle, debug_name, primitive(*ty))),
        Record(fields) => {
            of_parts(wenc_type_record, parts(fields.iter().map(|(name, ty)| (name, value(*ty)))))
        }
        Variant(cases) => {
            let cases = cases.iter().map(|case| (&case.name, maybe_value(case.ty)));
            of_parts(wenc_type_variant, parts(cases))
        }
        Flags(flags) => of_parts(wenc_type_flags, names(flags)),
        Enum(cases) => of_parts(wenc_type_enum, names(cases)),
        Tuple(types) => {
            let types = pairs(types.iter().map(|ty| value(*ty)));
            called_with!(wenc_type_tuple(handle, debug_name, types.as_ptr(), types.len()))
        }
        List(ty) => of_value(wenc_type_list, value(*ty)),
        Option(ty) => of_value(wenc_type_option, value(*ty)),
        Future(ty) => of_value(wenc_type_future, maybe_value(*ty)),
        Stream(ty) => of_value(wenc_type_stream, maybe_value(*ty)),
        Own(index) => called_with!(wenc_type_own(handle, debug_name, *index)),
        Borrow(index) => called_with!(wenc_type_borrow(handle, debug_name, *index)),
        FixedLengthList { element, length: n } => {
            let (sort, of) = value(*element);
            called_with!(wenc_type_fixed_length_list(handle, debug_name, sort, of, *n))
        }
        Map { key, value: of } => of_two(wenc_type_map, value(*key), value(*of)),
        Result { ok, err } => of_two(wenc_type_result, maybe_value(*ok), maybe_value(*err)),
    }
}

pub fn ty(handle: *mut Handle, debug_name: &Option<String>, ty: &TypeTree) -> Done {
    match ty {
        TypeTree::Defined(ty) => defined(handle, debug_name, ty),
        TypeTree::Func { is_async, params, result } => {
            let params = parts(params.iter().map(|(name, ty)| (name, value(*ty))));
            let ((at, len), (sort, of)) = ((params.as_ptr(), params.len()), maybe_value(*result));
            let is_async = Flag((*is_async).into());
            called_with!(wenc_type_function(handle, debug_name, is_async, at, len, sort, of))
        }
        TypeTree::Resource { dtor, .. } => {
            let (has_dtor, dtor) = (Flag(dtor.is_some().into()), dtor.unwrap_or(55));
            called_with!(wenc_type_resource(handle, debug_name, has_dtor, dtor))
        }
        TypeTree::Component(declared) => {
            let mut types = declared::component(declared)?;
            called_with!(wenc_type(handle, debug_name, types.at()))
        }
        TypeTree::Instance(declared) => {
            let mut types = declared::instance(declared)?;
            called_with!(wenc_type(handle, debug_name, types.at()))
        }
    }
}

/// Makes the call that does what a command does.
pub fn call(handle: *mut Handle, command: &Command) -> Done {
    match command {
        Command::CoreModule { debug_name, bytes } => {
            called_with!(wenc_core_module(handle, debug_name, bytes.as_ptr(), bytes.len()))
        }
        Command::ComponentRaw { debug_name, bytes } => {
            called_with!(wenc_component_bytes(handle, debug_name, bytes.as_ptr(), bytes.len()))
        }
        Command::CoreInstance { debug_name, instance } => {
            core_instance(handle, debug_name, instance)
        }
        Command::CoreType { debug_name, ty } => declared::core_type(handle, debug_name, ty),
        Command::Instance { debug_name, instance: of } => instance(handle, debug_name, of),
        Command::Alias { debug_name, alias: of } => alias(handle, debug_name, of),
        Command::Type { debug_name, ty: of } => ty(handle, debug_name, of),
        Command::Canon { debug_name, canon: of } => canon(handle, debug_name, of),
        Command::Start { function, args, results } => {
            called!(wenc_start(handle, *function, args.as_ptr(), args.len(), *results))
        }
        Command::Import { name, ty } => import(handle, name, *ty),
        Command::Export { name, kind: of, index, ty } => {
            export(handle, name, kind(*of), *index, *ty)
        }
        Command::Custom { name, data } => {
            let (at, len) = (data.as_ptr(), data.len());
            done(unsafe { wenc_custom_section(handle, name.as_ptr(), name.len(), at, len) })
                .map(|()| 0)
        }
        Command::Component { .. } | Command::AppendNames | Command::RawCustom { .. } => {
            unreachable!("no row has it")
        }
    }
}
