//! Growths of the library's memory that are refused, for tests: of the library that embed/build puts into
//! embed/out/refusing.

extern "C" {
    fn refuse_after_growths(before: std::ffi::c_ulong);
    fn refuse_no_growth() -> bool;
}

/// Has the growth behind `before` others be refused, of all databases of the process.
pub fn refuse_after(before: u64) {
    // SAFETY: it takes a number, which fits the C type of this target, and sets a counter.
    unsafe { refuse_after_growths(before) }
}

/// From here on none is refused. Whether one was.
pub fn refuse_none() -> bool {
    // SAFETY: it reads and sets counters.
    unsafe { refuse_no_growth() }
}
