//! The functions of `wenc.h`: they read the numbers, pointers and lengths of C, and make the calls
//! of the crate `wenc`. The package in `library` compiles them to the library for C.
//!
//! A call reads its arguments, including all members of lists, before it changes anything; so a
//! call that fails changes nothing. A pointer with a length of 0 isn't read. Any other pointer must
//! be NULL or as the header requires, which can't be checked.
#![no_std]
#![allow(clippy::missing_safety_doc, reason = "`wenc.h` says what each call needs")]

extern crate alloc;

pub mod arguments;
pub mod component_types;
pub mod core_types;
pub mod items;
pub mod last_error;
pub mod life;
pub mod listing;
pub mod nodes;
mod numbers;
pub mod rows;
pub mod sections;
mod session;
pub mod walk;

use alloc::boxed::Box;
use alloc::collections::TryReserveError;
use alloc::vec::Vec;
use core::ffi::CStr;
use core::ptr;
use last_error::LastError;
use session::Session;
use wenc::{Cause, Error, Format, Part, ReadError};

/// `enum wenc_status`: why a call failed, or `Done`.
#[derive(Clone, Copy, Debug, PartialEq, Eq)]
#[repr(u32)]
pub enum Status {
    Done,
    NoMemory,
    TooMany,
    TooLarge,
    Unfinished,
    Malformed,
    TooDeep,
    BadArgument,
    Finished,
    NoHandle,
    NotAComponent,
    BadSection,
    BadItem,
    End,
}

/// Why a call fails: its status, and the name in the header of the argument at fault, with the
/// number of the member.
#[derive(Clone, Copy, Debug)]
struct CallError {
    status: Status,
    argument: Option<&'static CStr>,
    member: usize,
}

/// The result of a call, or why it fails.
type Result<T, E = CallError> = core::result::Result<T, E>;

impl<S: Into<Status>> From<S> for CallError {
    fn from(status: S) -> Self {
        Self { status: status.into(), argument: None, member: 0 }
    }
}

impl CallError {
    /// Returns the error of an argument whose value isn't allowed.
    fn bad(argument: &'static CStr) -> Self {
        Self::from(Status::BadArgument).of(argument)
    }

    /// Adds the argument at fault.
    fn of(self, argument: &'static CStr) -> Self {
        Self { argument: Some(argument), ..self }
    }

    /// Adds the number of the member at fault.
    fn at(self, member: usize) -> Self {
        Self { member, ..self }
    }
}

impl From<Error> for Status {
    fn from(error: Error) -> Self {
        match error {
            Error::NoMemory => Self::NoMemory,
            Error::TooMany => Self::TooMany,
            Error::TooLarge => Self::TooLarge,
            Error::Unfinished => Self::Unfinished,
            // The header has no values with which the others occur.
            _ => Self::BadArgument,
        }
    }
}

impl From<TryReserveError> for Status {
    fn from(_: TryReserveError) -> Self {
        Self::NoMemory
    }
}

impl From<ReadError> for Status {
    fn from(error: ReadError) -> Self {
        match (error.format, error.part, error.cause) {
            _ if error.is_memory() => Self::NoMemory,
            (Format::Names | Format::Producers, ..) => Self::Malformed,
            (_, Part::Header, _) => Self::NotAComponent,
            (_, Part::Section, _) => Self::BadSection,
            (_, _, Cause::Deep { .. }) | (_, Part::Depth, _) => Self::TooDeep,
            _ => Self::BadItem,
        }
    }
}

impl From<Result<()>> for Status {
    fn from(result: Result<()>) -> Self {
        result.map_or_else(|error| error.status, |()| Self::Done)
    }
}

/// `wenc_handle`: owns a session on the heap, or nothing.
#[derive(Debug)]
#[repr(C)]
pub struct Handle {
    pub at: *mut Owned,
}

/// A session, and its last error.
pub struct Owned {
    session: Session,
    last_error: LastError,
}

/// Creates the session of a handle. Fails, and records that, if the handle owns one already.
unsafe fn begin(handle: *mut Handle, make: impl FnOnce() -> Result<Session>) -> Result<()> {
    let handle = unsafe { handle.as_mut() }.ok_or(Status::NoHandle)?;
    if let Some(owned) = unsafe { handle.at.as_mut() } {
        let error = CallError::bad(c"handle");
        owned.last_error.set(error);
        return Err(error);
    }
    let owned = Owned { session: make()?, last_error: LastError::default() };
    // `Box::new` aborts where the allocation fails.
    let mut made = Vec::new();
    made.try_reserve_exact(1)?;
    made.push(owned);
    handle.at = Box::into_raw(made.into_boxed_slice()).cast();
    Ok(())
}

/// Returns what a handle owns, for reading.
unsafe fn owned<'a>(handle: *const Handle) -> Option<&'a Owned> {
    unsafe { handle.as_ref()?.at.as_ref() }
}

/// Returns the session of a second handle, for reading. It must differ from the first.
unsafe fn other<'a>(session: &Session, handle: *const Handle) -> Result<&'a Session> {
    let at = unsafe { handle.as_ref() }.map_or(ptr::null_mut(), |handle| handle.at);
    // The first is borrowed: no reference to it is made here.
    if !at.is_null() && ptr::eq(unsafe { &raw const (*at).session }, session) {
        return Err(Status::BadArgument.into());
    }
    Ok(&unsafe { owned(handle) }.ok_or(Status::NoHandle)?.session)
}

/// Makes a call that changes the session of a handle, and writes its result through a pointer from
/// C. If it fails, that is recorded.
unsafe fn change<T>(
    handle: *mut Handle,
    to: *mut T,
    call: impl FnOnce(&mut Session) -> Result<T>,
) -> Status {
    let handle = unsafe { handle.as_ref() };
    let Some(owned) = handle.and_then(|handle| unsafe { handle.at.as_mut() }) else {
        return Status::NoHandle;
    };
    let result = call(&mut owned.session).inspect_err(|error| owned.last_error.set(*error));
    result.map(|value| unsafe { put(to, value) }).into()
}

/// Makes a call that only reads the session of a handle, as [`change`] does.
unsafe fn read<'a, T>(
    handle: *const Handle,
    to: *mut T,
    call: impl FnOnce(&'a Session) -> Result<T>,
) -> Status {
    let Some(owned) = (unsafe { owned(handle) }) else { return Status::NoHandle };
    let result = call(&owned.session).inspect_err(|error| owned.last_error.note(*error));
    result.map(|value| unsafe { put(to, value) }).into()
}

/// Writes a value through a pointer from C, unless that is NULL.
unsafe fn put<T>(at: *mut T, value: T) {
    if !at.is_null() {
        unsafe { at.write(value) };
    }
}

/// Defines functions of C. Their arguments are
///
/// - `name: T`, a `T`, or `&name: T`, a pointer to one;
/// - `name[name_len]: text`, a string in UTF-8, or `list[list_len]: T`, an array;
/// - `debug_name: name`, a pointer to a string, or NULL;
/// - `name: u32 => of` or `name[number, index] => of`, the value of one or two numbers, and
///   `list[list_len]: T => read of`, a list of such values, which [`arguments`]`::read` reads.
///
/// The handle comes before them, and with `-> index`, a pointer for the index after them. The body
/// takes the session and the arguments.
macro_rules! calls {
    ($(
        $name:ident($($argument:tt)*) $(-> $index:ident)? = |$session:ident| $body:expr;
    )*) => {
        $($crate::call! { [$name [$($index)?] $session $body] [] [] $($argument)*, })*
    };
}

/// Defines one function: its name, whether it has an index, the session and the body; the
/// parameters of C so far; the statements that read them; and the remaining arguments.
macro_rules! call {
    ([$f:ident [$($index:ident)?] $s:ident $body:expr] [$($c:tt)*] [$($read:tt)*] $(,)?) => {
        #[unsafe(no_mangle)]
        pub unsafe extern "C" fn $f(
            handle: *mut $crate::Handle,
            $($c)*
            $($index: *mut u32,)?
        ) -> $crate::Status {
            // NULL for a call without an index.
            let to = [$($index,)? core::ptr::null_mut()][0];
            unsafe { $crate::change(handle, to, |$s| { $($read)* $body }) }
        }
    };
    ([$f:ident $i:tt $s:ident $b:expr] [$($c:tt)*] [$($r:tt)*] $a:ident: name, $($rest:tt)*) => {
        $crate::call! {
            [$f $i $s $b] [$($c)* $a: *const $crate::arguments::Text,]
            [$($r)* let $a = $crate::arguments::debug_name($a)?; $s.take_name($a)?;] $($rest)*
        }
    };
    ($f:tt [$($c:tt)*] [$($r:tt)*] $a:ident: u32 => $of:path, $($rest:tt)*) => {
        $crate::call! {
            $f [$($c)* $a: u32,]
            [$($r)* let $a = $crate::arguments::known($crate::name_of!($a), $of($a))?;] $($rest)*
        }
    };
    ($f:tt [$($c:tt)*] [$($r:tt)*] $a:ident[$n:ident, $i:ident] => $of:path, $($rest:tt)*) => {
        $crate::call! {
            $f [$($c)* $n: u32, $i: u32,]
            [$($r)* let $a = $crate::arguments::known($crate::name_of!($n), $of($n, $i))?;]
            $($rest)*
        }
    };
    ($f:tt [$($c:tt)*] [$($r:tt)*] $a:ident[$l:ident]: text, $($rest:tt)*) => {
        $crate::call! {
            $f [$($c)* $a: *const u8, $l: usize,]
            [$($r)* let $a = $crate::arguments::text($crate::name_of!($a), $a, $l)?;] $($rest)*
        }
    };
    (
        $f:tt [$($c:tt)*] [$($r:tt)*]
        $a:ident[$l:ident]: $t:ident $(=> $read:ident $of:path)?, $($rest:tt)*
    ) => {
        $crate::call! {
            $f [$($c)* $a: *const $t, $l: usize,]
            [$($r)*
                let $a = $crate::arguments::counted($crate::name_of!($a), $a, $l)?;
                $(let $a = $crate::arguments::$read($crate::name_of!($a), $a, $of)?;)?
            ] $($rest)*
        }
    };
    ($f:tt [$($c:tt)*] [$($r:tt)*] &$a:ident: $t:ty, $($rest:tt)*) => {
        $crate::call! {
            $f [$($c)* $a: *const $t,]
            [$($r)* let $a = $crate::arguments::known($crate::name_of!($a), $a.as_ref())?;]
            $($rest)*
        }
    };
    ($f:tt [$($c:tt)*] $r:tt $a:ident: $t:ty, $($rest:tt)*) => {
        $crate::call! { $f [$($c)* $a: $t,] $r $($rest)* }
    };
}

/// Returns the name of an argument in the header.
macro_rules! name_of {
    (reference) => {
        c"ref"
    };
    (ty) => {
        c"type"
    };
    ($argument:ident) => {
        const {
            match core::ffi::CStr::from_bytes_with_nul(
                concat!(stringify!($argument), "\0").as_bytes(),
            ) {
                Ok(name) => name,
                Err(_) => unreachable!(),
            }
        }
    };
}

pub(crate) use {call, calls, name_of};
