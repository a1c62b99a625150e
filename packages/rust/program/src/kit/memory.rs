//! `clap` and std allocate without a result. If such an allocation fails, the program ends as after any other, with status 4.

use std::alloc::{GlobalAlloc, Layout, System};
use std::ffi::c_int;

unsafe extern "C" {
    fn write(descriptor: c_int, bytes: *const u8, count: usize) -> isize;
    fn _exit(status: c_int) -> !;
}

struct OrEnd;

#[cfg_attr(not(test), global_allocator)]
#[cfg_attr(test, expect(dead_code))]
static MEMORY: OrEnd = OrEnd;

fn or_end(block: *mut u8) -> *mut u8 {
    if block.is_null() {
        let line = b"aeadkit: OutOfMemory\n";
        // SAFETY: the line has that many bytes. Nothing is allocated, and nothing of this process goes on.
        unsafe {
            write(2, line.as_ptr(), line.len());
            _exit(4)
        }
    }
    block
}

// SAFETY: every call is handed on to the system's allocator, whose block is returned unless there is none.
unsafe impl GlobalAlloc for OrEnd {
    unsafe fn alloc(&self, layout: Layout) -> *mut u8 {
        or_end(unsafe { System.alloc(layout) })
    }

    unsafe fn alloc_zeroed(&self, layout: Layout) -> *mut u8 {
        or_end(unsafe { System.alloc_zeroed(layout) })
    }

    unsafe fn realloc(&self, block: *mut u8, layout: Layout, size: usize) -> *mut u8 {
        or_end(unsafe { System.realloc(block, layout, size) })
    }

    unsafe fn dealloc(&self, block: *mut u8, layout: Layout) {
        unsafe { System.dealloc(block, layout) }
    }
}
