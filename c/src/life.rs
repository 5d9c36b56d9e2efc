//! The calls that begin, finish and free what handles own.

use crate::arguments::known;
use crate::session::Session;
use crate::{CallError, Handle, Result, Status, begin, change, numbers, put, read};
use alloc::boxed::Box;
use alloc::vec::Vec;
use core::ffi::{CStr, c_char};
use core::{mem, ptr};
use wenc::{
    CanonicalFunctionSection, Component, ComponentAliasSection, ComponentBuilder,
    ComponentExportKind, ComponentExportSection, ComponentImportSection, ComponentInstanceSection,
    ComponentNameSection, ComponentSectionId, ComponentType, ComponentTypeSection, CoreTypeSection,
    InstanceSection, InstanceType, ModuleType,
};

/// `WENC_VERSION`: that of the package.
const VERSION: u32 = {
    let (minor, patch) = (env!("CARGO_PKG_VERSION_MINOR"), env!("CARGO_PKG_VERSION_PATCH"));
    10_000 * number(env!("CARGO_PKG_VERSION_MAJOR")) + 100 * number(minor) + number(patch)
};

const fn number(digits: &str) -> u32 {
    match u32::from_str_radix(digits, 10) {
        Ok(number) => number,
        Err(_) => unreachable!(),
    }
}

#[unsafe(no_mangle)]
pub extern "C" fn wenc_version() -> u32 {
    VERSION
}

/// A message for each status, in the order of `enum wenc_status`.
const TEXTS: [&CStr; 14] = [
    c"done",
    c"no memory",
    c"too many",
    c"too large",
    c"unfinished",
    c"malformed",
    c"too deep",
    c"bad argument",
    c"finished",
    c"no handle",
    c"not a component",
    c"bad section",
    c"bad item",
    c"end",
];

#[unsafe(no_mangle)]
pub extern "C" fn wenc_status_text(status: u32) -> *const c_char {
    let text = usize::try_from(status).ok().and_then(|status| TEXTS.get(status));
    text.map_or(c"unknown status", |text| text).as_ptr()
}

#[unsafe(no_mangle)]
pub unsafe extern "C" fn wenc_new(handle: *mut Handle) -> Status {
    unsafe { begin(handle, || Ok(Session::Building(ComponentBuilder::try_new()?))) }.into()
}

#[unsafe(no_mangle)]
pub unsafe extern "C" fn wenc_by_hand_new(handle: *mut Handle) -> Status {
    unsafe { begin(handle, || Ok(Session::ByHand(Component::try_new()?))) }.into()
}

#[unsafe(no_mangle)]
pub unsafe extern "C" fn wenc_types_new(handle: *mut Handle, kind: u32) -> Status {
    let make = || match known(c"kind", numbers::kind(kind))? {
        ComponentExportKind::Module => Ok(Session::ModuleType(ModuleType::new())),
        ComponentExportKind::Component => Ok(Session::ComponentType(ComponentType::new())),
        ComponentExportKind::Instance => Ok(Session::InstanceType(InstanceType::new())),
        _ => Err(CallError::bad(c"kind")),
    };
    unsafe { begin(handle, make) }.into()
}

#[unsafe(no_mangle)]
pub unsafe extern "C" fn wenc_section_new(handle: *mut Handle, section: u32) -> Status {
    let make = || {
        Ok(match known(c"section", numbers::section(section))? {
            ComponentSectionId::CoreInstance => Session::CoreInstances(InstanceSection::new()),
            ComponentSectionId::CoreType => Session::CoreTypes(CoreTypeSection::new()),
            ComponentSectionId::Instance => Session::Instances(ComponentInstanceSection::new()),
            ComponentSectionId::Alias => Session::Aliases(ComponentAliasSection::new()),
            ComponentSectionId::Type => Session::Types(ComponentTypeSection::new()),
            ComponentSectionId::CanonicalFunction => {
                Session::Functions(CanonicalFunctionSection::new())
            }
            ComponentSectionId::Import => Session::Imports(ComponentImportSection::new()),
            ComponentSectionId::Export => Session::Exports(ComponentExportSection::new()),
            _ => return Err(CallError::bad(c"section")),
        })
    };
    unsafe { begin(handle, make) }.into()
}

#[unsafe(no_mangle)]
pub unsafe extern "C" fn wenc_names_new(handle: *mut Handle) -> Status {
    unsafe { begin(handle, || Ok(Session::Names(ComponentNameSection::new()))) }.into()
}

#[unsafe(no_mangle)]
pub unsafe extern "C" fn wenc_free(handle: *mut Handle) {
    if let Some(handle) = unsafe { handle.as_mut() } {
        let at = mem::replace(&mut handle.at, ptr::null_mut());
        if !at.is_null() {
            drop(unsafe { Box::from_raw(ptr::slice_from_raw_parts_mut(at, 1)) });
        }
    }
}

/// Finishes a component and returns its bytes.
fn finished(session: &mut Session) -> Result<&[u8]> {
    if let Session::Building(_) | Session::ByHand(_) = session {
        let bytes = match mem::replace(session, Session::Finished(Vec::new())) {
            // No call leaves an item unfinished.
            Session::Building(builder) => builder.try_finish()?,
            Session::ByHand(component) => component.finish(),
            _ => return Err(CallError::bad(c"handle")),
        };
        *session = Session::Finished(bytes);
    }
    match session {
        Session::Finished(bytes) => Ok(bytes),
        _ => Err(CallError::bad(c"handle")),
    }
}

#[unsafe(no_mangle)]
pub unsafe extern "C" fn wenc_finish(
    handle: *mut Handle,
    bytes: *mut *const u8,
    len: *mut usize,
) -> Status {
    let finish = |session: &mut Session| {
        let all = finished(session)?;
        unsafe { put(bytes, all.as_ptr()) };
        unsafe { put(len, all.len()) };
        Ok(())
    };
    unsafe { change(handle, ptr::null_mut(), finish) }
}

#[unsafe(no_mangle)]
pub unsafe extern "C" fn wenc_bytes(handle: *const Handle, bytes: *mut u8, len: usize) -> Status {
    let copy = |session: &Session| match session {
        Session::Building(_) | Session::ByHand(_) => {
            Err(CallError::from(Status::Unfinished).of(c"handle"))
        }
        Session::Finished(whole) if whole.len() != len => Err(CallError::bad(c"len")),
        Session::Finished(_) if bytes.is_null() => Err(CallError::bad(c"bytes")),
        Session::Finished(whole) => {
            unsafe { ptr::copy_nonoverlapping(whole.as_ptr(), bytes, len) };
            Ok(())
        }
        _ => Err(session.wrong_handle()),
    };
    unsafe { read(handle, ptr::null_mut(), copy) }
}

#[unsafe(no_mangle)]
pub unsafe extern "C" fn wenc_count(handle: *const Handle, space: u32, count: *mut u32) -> Status {
    let counts = |session: &Session| session.count(known(c"space", numbers::space(space))?);
    unsafe { read(handle, count, counts) }
}

#[unsafe(no_mangle)]
pub unsafe extern "C" fn wenc_len(handle: *const Handle, len: *mut usize) -> Status {
    unsafe { read(handle, len, Session::len) }
}
