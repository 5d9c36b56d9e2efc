//! The calls that add items: imports, exports, aliases, modules, components, instances, functions.

use crate::arguments::{Name, Pair, Part, copied, known};
use crate::numbers::{maybe_type_ref, maybe_value, option, type_ref};
use crate::session::{Session, counted};
use crate::{CallError, Handle, Result, calls, numbers, other};
use core::ffi::CStr;
use wenc::{
    Alias, ComponentExternName, ComponentSectionId, ComponentStartSection, ModuleArg, RawSection,
};

/// Makes the call of a builder or of a section for a number of `enum wenc_function`.
macro_rules! builtin {
    ($to:ident, $function:ident, $first:ident, $second:ident) => {
        match $function {
            1 => $to.try_resource_new($first),
            2 => $to.try_resource_drop($first),
            3 => $to.try_resource_rep($first),
            4 => $to.try_task_cancel(),
            5 => $to.try_subtask_cancel(flag(c"first", $first)?),
            6 => $to.try_thread_yield(),
            7 => $to.try_subtask_drop(),
            8 => $to.try_stream_new($first),
            9 => $to.try_stream_cancel_read($first, flag(c"second", $second)?),
            10 => $to.try_stream_cancel_write($first, flag(c"second", $second)?),
            11 => $to.try_stream_drop_readable($first),
            12 => $to.try_stream_drop_writable($first),
            13 => $to.try_future_new($first),
            14 => $to.try_future_cancel_read($first, flag(c"second", $second)?),
            15 => $to.try_future_cancel_write($first, flag(c"second", $second)?),
            16 => $to.try_future_drop_readable($first),
            17 => $to.try_future_drop_writable($first),
            18 => $to.try_error_context_drop(),
            19 => $to.try_waitable_set_new(),
            20 => $to.try_waitable_set_wait($first),
            21 => $to.try_waitable_set_poll($first),
            22 => $to.try_waitable_set_drop(),
            23 => $to.try_waitable_join(),
            24 => $to.try_backpressure_inc(),
            25 => $to.try_backpressure_dec(),
            26 => $to.try_thread_index(),
            27 => $to.try_thread_new_indirect($first, $second),
            28 => $to.try_thread_resume_later(),
            29 => $to.try_thread_suspend(),
            30 => $to.try_thread_suspend_then_resume(),
            31 => $to.try_thread_yield_then_resume(),
            32 => $to.try_thread_suspend_then_promote(),
            33 => $to.try_thread_yield_then_promote(),
            34 => $to.try_stream_forward($first),
            35 => $to.try_future_forward($first),
            36 => $to.try_thread_spawn_ref($first),
            37 => $to.try_thread_spawn_indirect($first, $second),
            38 => $to.try_thread_available_parallelism(),
            _ => return Err(CallError::bad(c"function")),
        }
    };
}

/// Makes the call for a number of `enum wenc_function_with`.
macro_rules! builtin_with {
    ($to:ident, $function:ident, $first:ident, $options:ident) => {
        match $function {
            1 => $to.try_stream_read($first, $options),
            2 => $to.try_stream_write($first, $options),
            3 => $to.try_future_read($first, $options),
            4 => $to.try_future_write($first, $options),
            5 => $to.try_error_context_new($options),
            6 => $to.try_error_context_debug_message($options),
            _ => return Err(CallError::bad(c"function")),
        }
    };
}

/// Makes the call for a number of `enum wenc_context_function`.
macro_rules! slot {
    ($to:ident, $function:ident, $ty:ident, $slot:ident) => {
        match $function {
            1 => $to.try_context_get($ty, $slot),
            2 => $to.try_context_set($ty, $slot),
            _ => return Err(CallError::bad(c"function")),
        }
    };
}

/// Makes the call of a builder, or that of a section of this kind.
macro_rules! builder_or {
    ($session:ident, $section:ident, |$to:ident| $call:expr) => {
        builder_or!($session, |$to| $call, $section: $call)
    };
    ($session:ident, |$to:ident| $of_builder:expr, $section:ident: $of_section:expr) => {
        match $session {
            Session::Building($to) => Ok($of_builder?),
            Session::$section($to) => counted!($to => $of_section),
            _ => Err($session.wrong_handle()),
        }
    };
}

calls! {
    wenc_import(name[name_len]: text, ty[reference, of] => type_ref) -> index
        = |session| session.import(name.into(), ty);
    wenc_import_named(&name: Name, reference: u32, of: u32) -> index = |session| {
        session.import(name.read()?, known(c"ref", type_ref(reference, of))?)
    };
    wenc_export(
        name[name_len]: text, kind: u32 => numbers::kind, item: u32,
        ty[reference, of] => maybe_type_ref
    ) -> index = |session| {
        let name = ComponentExternName::from(name);
        builder_or!(session, Exports, |to| to.try_export(name, kind, item, ty))
    };
    wenc_export_named(
        &name: Name, kind: u32 => numbers::kind, item: u32, reference: u32, of: u32
    ) -> index = |session| {
        let (name, ty) = (name.read()?, known(c"ref", maybe_type_ref(reference, of))?);
        builder_or!(session, Exports, |to| to.try_export(name, kind, item, ty))
    };
    wenc_alias_export(instance: u32, kind: u32, name[name_len]: text) -> index = |session| {
        let kind = known(c"kind", numbers::kind(kind))?;
        match session {
            Session::Building(builder) => Ok(builder.try_alias_export(instance, name, kind)?),
            _ => session.alias(None, Alias::InstanceExport { instance, kind, name }),
        }
    };
    wenc_alias_instance_export(
        debug_name: name, instance: u32, kind: u32, name[name_len]: text
    ) -> index = |session| {
        let kind = known(c"kind", numbers::kind(kind))?;
        session.alias(debug_name, Alias::InstanceExport { instance, kind, name })
    };
    wenc_alias_core_export(
        debug_name: name, instance: u32, kind: u32, name[name_len]: text
    ) -> index = |session| {
        let kind = known(c"kind", numbers::core_kind(kind))?;
        session.alias(debug_name, Alias::CoreInstanceExport { instance, kind, name })
    };
    wenc_alias_outer(debug_name: name, kind: u32 => numbers::outer_kind, count: u32, item: u32)
        -> index = |session| session.alias(debug_name, Alias::Outer { kind, count, index: item });
    wenc_core_module(debug_name: name, bytes[len]: u8) -> index = |session| match session {
        Session::Building(builder) => Ok(builder.try_core_module_raw(debug_name, bytes)?),
        _ => session.append(&RawSection { id: ComponentSectionId::CoreModule.into(), data: bytes }),
    };
    wenc_component_bytes(debug_name: name, bytes[len]: u8) -> index
        = |session| add_component(session, debug_name, bytes);
    wenc_start(function: u32, args[args_len]: u32, results: u32) -> index
        = |session| match session {
        Session::Building(builder) => Ok(builder.try_start(function, copied(args)?, results)?),
        _ => session.append(&ComponentStartSection { function_index: function, args, results }),
    };
    wenc_lift(
        debug_name: name, function: u32, ty: u32, options[options_len]: Pair => unnamed option
    ) -> index = |session| builder_or!(
        session,
        |to| to.try_lift_func(debug_name, function, ty, options),
        Functions: to.try_lift(function, ty, options)
    );
    wenc_lower(debug_name: name, function: u32, options[options_len]: Pair => unnamed option)
        -> index = |session| builder_or!(
        session,
        |to| to.try_lower_func(debug_name, function, options),
        Functions: to.try_lower(function, options)
    );
    wenc_builtin(function: u32, first: u32, second: u32) -> index
        = |session| builder_or!(session, Functions, |to| builtin!(to, function, first, second));
    wenc_builtin_with(function: u32, first: u32, options[options_len]: Pair => unnamed option)
        -> index = |session| {
        builder_or!(session, Functions, |to| builtin_with!(to, function, first, options))
    };
    wenc_task_return(
        ty[reference, of] => maybe_value, options[options_len]: Pair => unnamed option
    ) -> index = |session| builder_or!(session, Functions, |to| to.try_task_return(ty, options));
    wenc_context(function: u32, ty: u32 => numbers::core_number, slot: u32) -> index = |session| {
        let ty = ty.into();
        builder_or!(session, Functions, |to| slot!(to, function, ty, slot))
    };
    wenc_core_instantiate(debug_name: name, module: u32, args[args_len]: Part => named instance)
        -> index = |session| builder_or!(
        session,
        |to| to.try_core_instantiate(debug_name, module, args),
        CoreInstances: to.try_instantiate(module, args)
    );
    wenc_core_exports(debug_name: name, exports[exports_len]: Part => items numbers::core_kind)
        -> index = |session| builder_or!(
        session,
        |to| to.try_core_instantiate_exports(debug_name, exports),
        CoreInstances: to.try_export_items(exports)
    );
    wenc_instantiate(debug_name: name, component: u32, args[args_len]: Part => items numbers::kind)
        -> index = |session| builder_or!(
        session,
        |to| to.try_instantiate(debug_name, component, args),
        Instances: to.try_instantiate(component, args)
    );
    wenc_export_items(debug_name: name, items[items_len]: Part => items numbers::kind) -> index
        = |session| builder_or!(
        session,
        |to| to.try_instantiate_exports(debug_name, items),
        Instances: to.try_export_items(items)
    );
    wenc_component_ref(debug_name: name, nested: *const Handle) -> index = |session| {
        let nested = other(session, nested).map_err(|error| error.of(c"nested"))?;
        nest(session, debug_name, nested)
    };
    wenc_component(debug_name: name, nested: *mut Handle) -> index = |session| {
        let given = other(session, nested).map_err(|error| error.of(c"nested"))?;
        let index = nest(session, debug_name, given)?;
        super::life::wenc_free(nested);
        Ok(index)
    };
}

/// The argument of a core module that is a core instance. Its kind isn't used.
fn instance(_: u32, instance: u32) -> Option<ModuleArg> {
    Some(ModuleArg::Instance(instance))
}

/// Adds a component given as bytes.
fn add_component(session: &mut Session, debug_name: Option<&str>, bytes: &[u8]) -> Result<u32> {
    match session {
        Session::Building(builder) => Ok(builder.try_component_raw(debug_name, bytes)?),
        _ => session.append(&RawSection { id: ComponentSectionId::Component.into(), data: bytes }),
    }
}

/// Nests the other handle's component; that handle stays valid.
fn nest(session: &mut Session, debug_name: Option<&str>, nested: &Session) -> Result<u32> {
    match nested {
        Session::Building(nested) => {
            Ok(session.builder()?.try_component_ref(debug_name, nested)?)
        }
        Session::ByHand(nested) => add_component(session, debug_name, nested.as_slice()),
        _ => Err(nested.wrong_handle().of(c"nested")),
    }
}

/// Converts a number to a flag.
fn flag(argument: &'static CStr, number: u32) -> Result<bool> {
    match number {
        0 => Ok(false),
        1 => Ok(true),
        _ => Err(CallError::bad(argument)),
    }
}
