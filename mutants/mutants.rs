//! Which mutant runs: the number in the environment's `MUTANT`.

use core::ffi::{c_char, c_int, c_void};
use core::sync::atomic::{AtomicBool, AtomicU32, Ordering::Relaxed};

unsafe extern "C" {
    fn getenv(name: *const c_char) -> *const c_char;
    fn write(file: c_int, bytes: *const c_void, len: usize) -> isize;
}

/// No number was read yet.
const UNREAD: u32 = u32::MAX;

static NUMBER: AtomicU32 = AtomicU32::new(UNREAD);

/// The file that is told which bodies run, or -1.
static FILE: AtomicU32 = AtomicU32::new(UNREAD);

static REACHED: [AtomicBool; 8192] = [const { AtomicBool::new(false) }; 8192];

/// Reads a number of the environment. Allocates nothing.
fn read(name: &core::ffi::CStr) -> Option<u32> {
    // SAFETY: the name ends with a zero, and so does the value.
    let value = unsafe {
        let value = getenv(name.as_ptr());
        if value.is_null() {
            return None;
        }
        core::ffi::CStr::from_ptr(value)
    };
    value.to_str().ok()?.parse().ok()
}

/// Returns the number of the mutant that runs, 0 if none does.
#[inline]
pub fn number(body: usize) -> u32 {
    let number = NUMBER.load(Relaxed);
    if number == UNREAD || number == 0 { first(body) } else { number }
}

/// Notes that a body is reached, where no mutant runs.
fn first(body: usize) -> u32 {
    if NUMBER.load(Relaxed) == UNREAD {
        FILE.store(read(c"MUTANTS_REACHED").unwrap_or(UNREAD), Relaxed);
        NUMBER.store(read(c"MUTANT").unwrap_or(0), Relaxed);
    }
    let file = FILE.load(Relaxed);
    if file != UNREAD && !REACHED[body].swap(true, Relaxed) {
        let bytes = (body as u32).to_le_bytes();
        // SAFETY: the bytes are there.
        unsafe { write(file as c_int, bytes.as_ptr().cast(), bytes.len()) };
    }
    NUMBER.load(Relaxed)
}
