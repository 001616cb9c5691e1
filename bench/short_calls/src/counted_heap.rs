//! The C library's heap, which counts the blocks that are asked for: both libraries have their memory from it.

use std::ffi::c_void;
use std::sync::atomic::{AtomicUsize, Ordering};

extern "C" {
    fn __libc_malloc(size: usize) -> *mut c_void;
    fn __libc_calloc(count: usize, size: usize) -> *mut c_void;
    fn __libc_realloc(block: *mut c_void, size: usize) -> *mut c_void;
}

static BLOCKS: AtomicUsize = AtomicUsize::new(0);

/// How many blocks were asked for so far.
pub fn blocks() -> usize {
    BLOCKS.load(Ordering::Relaxed)
}

fn count() {
    BLOCKS.store(blocks() + 1, Ordering::Relaxed);
}

#[no_mangle]
unsafe extern "C" fn malloc(size: usize) -> *mut c_void {
    count();
    __libc_malloc(size)
}

#[no_mangle]
unsafe extern "C" fn calloc(number: usize, size: usize) -> *mut c_void {
    count();
    __libc_calloc(number, size)
}

#[no_mangle]
unsafe extern "C" fn realloc(block: *mut c_void, size: usize) -> *mut c_void {
    count();
    __libc_realloc(block, size)
}
