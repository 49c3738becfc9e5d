//! Tests calls that the library's allocator, which is C's `malloc`, refuses memory.

use mini_moka_proved::{ByteCache, Cache, Insertion, NumberCache, OutOfMemory, ValueRef};
use std::ffi::c_void;
use std::ptr::null_mut;
use std::sync::atomic::{AtomicBool, Ordering};

static REFUSES: AtomicBool = AtomicBool::new(false);

extern "C" {
    fn __libc_malloc(size: usize) -> *mut c_void;
    fn __libc_realloc(place: *mut c_void, size: usize) -> *mut c_void;
}

// The library calls these in place of glibc's functions of the same names. They call glibc's unless memory is refused.

#[no_mangle]
unsafe extern "C" fn malloc(size: usize) -> *mut c_void {
    if REFUSES.load(Ordering::Relaxed) {
        return null_mut();
    }
    __libc_malloc(size)
}

#[no_mangle]
unsafe extern "C" fn realloc(place: *mut c_void, size: usize) -> *mut c_void {
    if REFUSES.load(Ordering::Relaxed) {
        return null_mut();
    }
    __libc_realloc(place, size)
}

/// Makes a call that is refused all memory. The call itself must not take memory in Rust.
fn refused<T>(call: impl FnOnce() -> T) -> T {
    REFUSES.store(true, Ordering::Relaxed);
    let answer = call();
    REFUSES.store(false, Ordering::Relaxed);
    answer
}

// One test alone, since the refusals are those of all threads.
#[test]
fn a_call_that_is_refused_memory_changes_nothing() {
    let mut numbers = NumberCache::builder().build().unwrap();
    assert_eq!(refused(|| numbers.get_or_insert(7, 49)), Err(OutOfMemory));
    assert_eq!(refused(|| numbers.insert(7, 49)), Err(OutOfMemory));
    assert_eq!(numbers.len(), 0);
    assert_eq!(numbers.get_or_insert(7, 49), Ok(49));
    assert_eq!(refused(|| numbers.get_or_insert(7, 50)), Ok(49));

    // A key that doesn't fit into an entry is copied for a look-up.
    let long = [1; 1000];
    let mut bytes = ByteCache::builder().build().unwrap();
    bytes.insert(long, b"value").unwrap();
    assert!(!refused(|| bytes.contains_key([1; 2000])));
    assert!(bytes.contains_key(long));
    assert_eq!(
        refused(|| bytes.insert(b"other", b"value")),
        Err(OutOfMemory)
    );
    assert!(bytes.contains_key(long));
    assert_eq!(bytes.len(), 1);

    for count in 1..10 {
        refuse_a_typed_insert(count);
    }
}

/// Refuses a cache of so many entries the next one. For some numbers Rust has memory for its slot, and
/// the library has none for it.
fn refuse_a_typed_insert(count: usize) {
    let mut typed = Cache::builder().build();
    for number in 0..count {
        typed.insert(number, "old");
    }
    let found = refused(|| typed.get_or_insert_with(count, || "new"));
    let is_stored = found == ValueRef::Cached(&"new");
    assert!(is_stored || found == ValueRef::Rejected("new"));
    let stored = refused(|| typed.try_insert(count + 1, "new"));
    assert!(is_stored || stored == Err(OutOfMemory));
    assert_eq!(typed.try_insert(0, "new"), Ok(Insertion::Replaced("old")));
    assert_eq!(typed.iter().count(), typed.len());
    typed.insert(count + 2, "other");
    assert_eq!(typed.get(&(count + 2)), Some(&"other"));
    assert_eq!(typed.get(&count).is_some(), is_stored);
}
