//! Settings of `malloc` for the benchmarks.

/// Makes `malloc` keep freed memory, so that only the first repeat pays for the first touch of a page.
#[cfg(target_env = "gnu")]
pub fn keep_memory() {
    use std::ffi::c_int;
    extern "C" {
        fn mallopt(parameter: c_int, value: c_int) -> c_int;
    }
    const TRIM_THRESHOLD: c_int = -1;
    const MMAP_MAX: c_int = -4;
    let kept = unsafe { mallopt(MMAP_MAX, 0) == 1 && mallopt(TRIM_THRESHOLD, -1) == 1 };
    assert!(kept, "malloc refused to keep freed memory");
}

#[cfg(not(target_env = "gnu"))]
pub fn keep_memory() {}
