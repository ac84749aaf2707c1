//! Allocation as the C library has it, but for one growth, which is refused. `refused-growths` beside this builds it as
//! a library, and lays that under tests. REFUSED_GROWTH counts the growth, from 1, and REFUSED_MARK names a file that
//! is made where there was one.

use std::ffi::{c_char, c_int, c_long, c_void};
use std::sync::atomic::{AtomicBool, AtomicI64, Ordering};

extern "C" {
    fn __libc_malloc(n: usize) -> *mut c_void;
    fn __libc_calloc(k: usize, n: usize) -> *mut c_void;
    fn __libc_realloc(p: *mut c_void, n: usize) -> *mut c_void;
    fn __libc_memalign(a: usize, n: usize) -> *mut c_void;
    fn __errno_location() -> *mut c_int;
    fn getenv(name: *const c_char) -> *const c_char;
    fn atol(text: *const c_char) -> c_long;
    fn strcmp(a: *const c_char, b: *const c_char) -> c_int;
    fn creat(path: *const c_char, mode: u32) -> c_int;
    fn close(file: c_int) -> c_int;
    static program_invocation_short_name: *const c_char;
}

const NO_MEMORY: c_int = 12;
/// A test that asks for so many bytes says that growths may be refused from there on, or that none is.
const MAY_BE_REFUSED: usize = 7_000_001;
const ARE_GRANTED: usize = 7_000_000;
static GRANTED: AtomicBool = AtomicBool::new(false);
static ASKED: AtomicI64 = AtomicI64::new(0);

/// Whether this growth of a test is the one to refuse. Then a file says that there was one.
unsafe fn refused(bytes: usize) -> bool {
    if bytes == MAY_BE_REFUSED || bytes == ARE_GRANTED {
        GRANTED.store(bytes == ARE_GRANTED, Ordering::SeqCst);
        return false;
    }
    if GRANTED.load(Ordering::SeqCst) {
        return false;
    }
    let (at, mark) = (getenv(c"REFUSED_GROWTH".as_ptr()), getenv(c"REFUSED_MARK".as_ptr()));
    if at.is_null() || mark.is_null() || strcmp(program_invocation_short_name, c"growth_tests_tests".as_ptr()) != 0 {
        return false;
    }
    if ASKED.fetch_add(1, Ordering::Relaxed) + 1 != atol(at) as i64 {
        return false;
    }
    close(creat(mark, 0o600));
    *__errno_location() = NO_MEMORY;
    true
}

macro_rules! growing {
    ($($name:ident($($arg:ident: $kind:ty),*) of $bytes:expr, by $real:ident;)*) => {$(
        #[no_mangle]
        pub unsafe extern "C" fn $name($($arg: $kind),*) -> *mut c_void {
            if refused($bytes) { std::ptr::null_mut() } else { $real($($arg),*) }
        }
    )*};
}

growing! {
    malloc(n: usize) of n, by __libc_malloc;
    calloc(k: usize, n: usize) of k.saturating_mul(n), by __libc_calloc;
    realloc(p: *mut c_void, n: usize) of n, by __libc_realloc;
    aligned_alloc(a: usize, n: usize) of n, by __libc_memalign;
    memalign(a: usize, n: usize) of n, by __libc_memalign;
}

#[no_mangle]
pub unsafe extern "C" fn posix_memalign(p: *mut *mut c_void, a: usize, n: usize) -> c_int {
    if refused(n) {
        return NO_MEMORY;
    }
    *p = __libc_memalign(a, n);
    if (*p).is_null() { NO_MEMORY } else { 0 }
}
