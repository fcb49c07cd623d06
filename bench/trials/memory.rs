//! Memory that is refused: the linker leads every `malloc` and `realloc` of this program here (`--wrap`).

use std::ffi::c_void;
use std::sync::atomic::{AtomicU64, Ordering::SeqCst};

unsafe extern "C" {
    fn __real_malloc(size: usize) -> *mut c_void;
    fn __real_realloc(memory: *mut c_void, size: usize) -> *mut c_void;
}

// How many were asked for since `begin`, and the number of the one that is refused; 0 for none.
static ASKED: AtomicU64 = AtomicU64::new(0);
static REFUSED: AtomicU64 = AtomicU64::new(0);

fn is_refused() -> bool {
    ASKED.fetch_add(1, SeqCst) + 1 == REFUSED.load(SeqCst)
}

#[unsafe(no_mangle)]
extern "C" fn __wrap_malloc(size: usize) -> *mut c_void {
    if is_refused() {
        return std::ptr::null_mut();
    }
    // SAFETY: malloc may be called with any size.
    unsafe { __real_malloc(size) }
}

#[unsafe(no_mangle)]
extern "C" fn __wrap_realloc(memory: *mut c_void, size: usize) -> *mut c_void {
    if is_refused() {
        return std::ptr::null_mut();
    }
    // SAFETY: the caller handed this memory to realloc.
    unsafe { __real_realloc(memory, size) }
}

/// Runs with one allocation refused, counted from 1, or with none at 0, and returns how many were asked for. What runs allocates nothing
/// on the side of this program.
pub fn refusing<T>(number: u64, run: impl FnOnce() -> T) -> (T, u64) {
    ASKED.store(0, SeqCst);
    REFUSED.store(number, SeqCst);
    let answer = run();
    REFUSED.store(0, SeqCst);
    (answer, ASKED.load(SeqCst))
}
