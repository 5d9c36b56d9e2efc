//! C's allocator and `abort`.

use core::alloc::{GlobalAlloc, Layout};
use core::ffi::c_void;
use core::panic::PanicInfo;

// Linked even without Rust's `std`, so that the shared library names what it needs.
#[cfg_attr(unix, link(name = "c"))]
unsafe extern "C" {
    fn malloc(len: usize) -> *mut c_void;
    fn realloc(at: *mut c_void, len: usize) -> *mut c_void;
    fn free(at: *mut c_void);
    fn abort() -> !;
}

/// The alignment that `malloc` guarantees.
const ALIGNED: usize = 2 * size_of::<usize>();

/// C's allocator. A request for a larger alignment fails: nothing here makes such a request.
struct Memory;

unsafe impl GlobalAlloc for Memory {
    unsafe fn alloc(&self, layout: Layout) -> *mut u8 {
        if layout.align() > ALIGNED {
            return core::ptr::null_mut();
        }
        unsafe { malloc(layout.size()) }.cast()
    }

    unsafe fn dealloc(&self, at: *mut u8, _: Layout) {
        unsafe { free(at.cast()) };
    }

    unsafe fn realloc(&self, at: *mut u8, _: Layout, len: usize) -> *mut u8 {
        unsafe { realloc(at.cast(), len) }.cast()
    }
}

#[global_allocator]
static MEMORY: Memory = Memory;

#[panic_handler]
fn end(_: &PanicInfo<'_>) -> ! {
    unsafe { abort() }
}
