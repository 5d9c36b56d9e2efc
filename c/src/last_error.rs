//! Why the last call by a handle failed.

use crate::{CallError, Handle, Status, owned, put};
use core::ffi::{CStr, c_char};
use core::ptr;
use core::sync::atomic::{AtomicU32, Ordering};

/// Why the last failed call of a handle failed.
#[derive(Default)]
pub(crate) struct LastError {
    /// The error of a call that may change what the handle owns.
    of_change: Option<CallError>,
    /// The error of a call that only reads, if that was the last one: the status, and from the
    /// second byte on the number of the argument. Several threads may make such calls at once.
    of_read: AtomicU32,
}

/// The arguments of calls that only read, by their numbers; 0 is none.
const ARGUMENTS: [&CStr; 7] = [c"", c"handle", c"bytes", c"len", c"space", c"number", c"section"];

impl LastError {
    /// Records why a call failed that may change what the handle owns.
    pub fn set(&mut self, error: CallError) {
        *self = Self { of_change: Some(error), ..Self::default() };
    }

    /// Records why a call failed that only reads.
    pub fn note(&self, error: CallError) {
        let is_it = |argument: &&CStr| error.argument == Some(*argument);
        let argument = ARGUMENTS.iter().position(is_it).unwrap_or(0) as u32;
        self.of_read.store(error.status as u32 | argument << 8, Ordering::Relaxed);
    }

    /// Returns the error that was recorded last.
    fn row(&self) -> ErrorRow {
        let of_read = self.of_read.load(Ordering::Relaxed);
        if of_read != 0 {
            let argument = usize::try_from(of_read >> 8).ok().filter(|argument| *argument > 0);
            let argument = argument.and_then(|argument| ARGUMENTS.get(argument).copied());
            return ErrorRow::new(of_read & 0xff, argument, 0);
        }
        let CallError { status, argument, member } = self.of_change.unwrap_or(Status::Done.into());
        ErrorRow::new(status as u32, argument, member)
    }
}

/// `wenc_error`: why a call failed.
#[repr(C)]
pub struct ErrorRow {
    pub argument: *const c_char,
    pub member: usize,
    pub status: u32,
}

impl ErrorRow {
    fn new(status: u32, argument: Option<&'static CStr>, member: usize) -> Self {
        Self { argument: argument.map_or(ptr::null(), CStr::as_ptr), member, status }
    }
}

#[unsafe(no_mangle)]
pub unsafe extern "C" fn wenc_last_error(handle: *const Handle, error: *mut ErrorRow) -> Status {
    let Some(owned) = (unsafe { owned(handle) }) else { return Status::NoHandle };
    unsafe { put(error, owned.last_error.row()) };
    Status::Done
}
