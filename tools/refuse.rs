//! Failing allocations: a library that is loaded before a program (`LD_PRELOAD`) and wraps the C
//! library's malloc and realloc, the two calls by which programs of this repository allocate.
//! Allocations are counted from 1, in the order of the calls.
//!
//! Three numbers in the environment control it: `REFUSE_FIRST` and `REFUSE_LAST`, the first and the
//! last allocation that fails, and `REFUSE_TOLD`, the number of a file to which a byte is written
//! at each failure.
#![no_std]

use core::ffi::{CStr, c_char, c_int, c_void};
use core::ptr::null_mut;
use core::sync::atomic::{AtomicU64, Ordering};

#[link(name = "c")]
unsafe extern "C" {
    fn __libc_malloc(size: usize) -> *mut c_void;
    fn __libc_realloc(old: *mut c_void, size: usize) -> *mut c_void;
    fn getenv(name: *const c_char) -> *const c_char;
    fn strtoull(text: *const c_char, end: *mut *mut c_char, base: c_int) -> u64;
    fn write(file: c_int, bytes: *const c_void, count: usize) -> isize;
}

static ASKED: AtomicU64 = AtomicU64::new(0);

/// The number of that name; 0 if there is none.
fn number(name: &CStr) -> u64 {
    // SAFETY: the name ends with a zero byte, and so do the values of the environment.
    unsafe {
        let text = getenv(name.as_ptr());
        if text.is_null() { 0 } else { strtoull(text, null_mut(), 10) }
    }
}

/// Counts one more allocation, and returns whether it fails.
fn is_refused() -> bool {
    let asked = ASKED.fetch_add(1, Ordering::Relaxed) + 1;
    let refused = number(c"REFUSE_FIRST") <= asked && asked <= number(c"REFUSE_LAST");
    if refused {
        // SAFETY: one byte is read, of a constant.
        unsafe { write(number(c"REFUSE_TOLD") as c_int, c"r".as_ptr().cast(), 1) };
    }
    refused
}

/// # Safety
/// As for the C library's.
#[unsafe(no_mangle)]
pub unsafe extern "C" fn malloc(size: usize) -> *mut c_void {
    if is_refused() { null_mut() } else { unsafe { __libc_malloc(size) } }
}

/// # Safety
/// As for the C library's.
#[unsafe(no_mangle)]
pub unsafe extern "C" fn realloc(old: *mut c_void, size: usize) -> *mut c_void {
    if is_refused() { null_mut() } else { unsafe { __libc_realloc(old, size) } }
}

#[panic_handler]
fn panic(_: &core::panic::PanicInfo) -> ! {
    loop {}
}
