//! The calls that add and declare types.

use crate::arguments::{Flag, Name, Pair, Part, known, names};
use crate::numbers::{maybe_value, type_ref, value};
use crate::session::Session;
use crate::{CallError, Handle, Result, calls, numbers, other};
use wenc::{ComponentDefinedTypeEncoder, ComponentTypeEncoder, ComponentValType, Error, ValType};

calls! {
    wenc_type_resource(debug_name: name, has_dtor: Flag, dtor: u32) -> index = |session| {
        let dtor = has_dtor.is_set().then_some(dtor);
        session.ty(debug_name, |to| to.try_resource(ValType::I32, dtor))
    };
    wenc_type_function(
        debug_name: name, is_async: Flag, params[params_len]: Part => named value,
        result[reference, of] => maybe_value
    ) -> index = |session| {
        let is_async = is_async.is_set();
        session.ty(debug_name, |to| write_function(to, is_async, params, result))
    };
    wenc_type_primitive(debug_name: name, primitive: u32 => numbers::primitive) -> index
        = |session| defined(session, debug_name, |to| to.try_primitive(primitive));
    wenc_type_record(debug_name: name, fields[fields_len]: Part => named value) -> index
        = |session| defined(session, debug_name, |to| to.try_record(fields));
    wenc_type_variant(debug_name: name, cases[cases_len]: Part => named maybe_value) -> index
        = |session| defined(session, debug_name, |to| to.try_variant(cases));
    wenc_type_list(debug_name: name, ty[reference, of] => value) -> index
        = |session| defined(session, debug_name, |to| to.try_list(ty));
    wenc_type_fixed_length_list(debug_name: name, ty[reference, of] => value, length: u32) -> index
        = |session| defined(session, debug_name, |to| to.try_fixed_length_list(ty, length));
    wenc_type_map(debug_name: name, key[key_ref, key_of] => value, ty[reference, of] => value)
        -> index = |session| defined(session, debug_name, |to| to.try_map(key, ty));
    wenc_type_tuple(debug_name: name, elements[elements_len]: Pair => unnamed value) -> index
        = |session| defined(session, debug_name, |to| to.try_tuple(elements));
    wenc_type_flags(debug_name: name, flags[flags_len]: Part) -> index = |session| {
        let flags = names(c"flags", flags)?;
        defined(session, debug_name, |to| to.try_flags(flags))
    };
    wenc_type_enum(debug_name: name, cases[cases_len]: Part) -> index = |session| {
        let cases = names(c"cases", cases)?;
        defined(session, debug_name, |to| to.try_enum_type(cases))
    };
    wenc_type_option(debug_name: name, ty[reference, of] => value) -> index
        = |session| defined(session, debug_name, |to| to.try_option(ty));
    wenc_type_result(
        debug_name: name, ok[ok_ref, ok_of] => maybe_value, err[err_ref, err_of] => maybe_value
    ) -> index = |session| defined(session, debug_name, |to| to.try_result(ok, err));
    wenc_type_own(debug_name: name, resource: u32) -> index
        = |session| defined(session, debug_name, |to| to.try_own(resource));
    wenc_type_borrow(debug_name: name, resource: u32) -> index
        = |session| defined(session, debug_name, |to| to.try_borrow(resource));
    wenc_type_future(debug_name: name, ty[reference, of] => maybe_value) -> index
        = |session| defined(session, debug_name, |to| to.try_future(ty));
    wenc_type_stream(debug_name: name, ty[reference, of] => maybe_value) -> index
        = |session| defined(session, debug_name, |to| to.try_stream(ty));
    wenc_type(debug_name: name, types: *const Handle) -> index = |session| {
        match other(session, types).map_err(|error| error.of(c"types"))? {
            Session::ComponentType(ty) => session.ty(debug_name, |to| to.try_component(ty)),
            Session::InstanceType(ty) => session.ty(debug_name, |to| to.try_instance(ty)),
            Session::ModuleType(ty) => session.module_type(debug_name, ty),
            _ => Err(CallError::bad(c"types")),
        }
    };
    wenc_type_export(name[name_len]: text, ty[reference, of] => type_ref) -> index
        = |session| session.declare(name.into(), ty);
    wenc_type_export_named(&name: Name, reference: u32, of: u32) -> index = |session| {
        session.declare(name.read()?, known(c"ref", type_ref(reference, of))?)
    };
}

/// Adds a type of values.
fn defined(
    session: &mut Session,
    debug_name: Option<&str>,
    write: impl FnOnce(ComponentDefinedTypeEncoder<'_>) -> Result<(), Error>,
) -> Result<u32> {
    session.ty(debug_name, |encoder| write(encoder.defined_type()))
}

fn write_function<'a>(
    encoder: ComponentTypeEncoder<'_>,
    is_async: bool,
    params: impl ExactSizeIterator<Item = (&'a str, ComponentValType)>,
    result: Option<ComponentValType>,
) -> Result<(), Error> {
    let mut encoder = encoder.function();
    encoder.try_async(is_async)?.try_params(params)?.try_result(result).map(drop)
}
