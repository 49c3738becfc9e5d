//! Tests calls that Rust's allocator refuses memory.

use mini_moka_proved::{sync, BuildError, ByteCache, Cache, Insertion, OutOfMemory, ValueRef};
use std::alloc::{GlobalAlloc, Layout, System};
use std::cell::Cell;
use std::panic::{catch_unwind, set_hook, take_hook, AssertUnwindSafe};
use std::ptr::null_mut;

/// The system's allocator, which refuses a thread each allocation above its limit.
struct Limited;

thread_local! {
    static LIMIT: Cell<usize> = const { Cell::new(usize::MAX) };
}

// SAFETY: each call is the system allocator's, or returns null.
unsafe impl GlobalAlloc for Limited {
    unsafe fn alloc(&self, layout: Layout) -> *mut u8 {
        if layout.size() > LIMIT.with(Cell::get) {
            return null_mut();
        }
        System.alloc(layout)
    }

    unsafe fn dealloc(&self, place: *mut u8, layout: Layout) {
        System.dealloc(place, layout);
    }

    unsafe fn realloc(&self, place: *mut u8, layout: Layout, size: usize) -> *mut u8 {
        if size > LIMIT.with(Cell::get) {
            return null_mut();
        }
        System.realloc(place, layout, size)
    }
}

#[global_allocator]
static ALLOCATOR: Limited = Limited;

/// Makes a call that is refused each allocation of more than `limit` bytes.
fn limited<T>(limit: usize, call: impl FnOnce() -> T) -> T {
    LIMIT.with(|it| it.set(limit));
    let answer = call();
    LIMIT.with(|it| it.set(usize::MAX));
    answer
}

/// Creates a cache with a value of 1000 bytes and one of 10.
fn filled() -> ByteCache {
    let mut cache = ByteCache::builder().build().unwrap();
    cache.insert(b"long", [1; 1000]).unwrap();
    cache.insert(b"short", [1; 10]).unwrap();
    cache
}

#[test]
fn a_cache_is_not_built() {
    for limit in [0, 16, 255] {
        let built = limited(limit, || ByteCache::builder().build());
        assert_eq!(built.unwrap_err(), BuildError::OutOfMemory);
    }
}

#[test]
fn a_look_up_finds_nothing() {
    let mut cache = filled();
    assert_eq!(limited(999, || cache.get(b"long")), None);
    assert_eq!(limited(999, || cache.peek(b"long")), None);
    assert_eq!(limited(9, || cache.get(b"short")), None);
    assert_eq!(limited(999, || cache.try_get(b"long")), Err(OutOfMemory));
    assert_eq!(limited(999, || cache.try_get(b"none")), Ok(None));
    assert_eq!(cache.get(b"long"), Some(vec![1; 1000]));
    assert_eq!(cache.get(b"short"), Some(vec![1; 10]));
}

#[test]
fn a_buffer_that_cannot_grow_is_left_empty() {
    let mut cache = filled();
    let mut buffer = vec![2; 20];
    let refused = limited(999, || cache.get_into(b"long", &mut buffer));
    assert_eq!(refused, Err(OutOfMemory));
    assert_eq!(buffer, b"");
    let found = limited(0, || cache.get_into(b"short", &mut buffer));
    assert_eq!(found, Ok(true));
    assert_eq!(buffer, [1; 10]);
}

#[test]
fn a_removal_leaves_the_entry() {
    let mut cache = filled();
    assert_eq!(limited(999, || cache.remove(b"long")), Err(OutOfMemory));
    assert_eq!(cache.remove(b"long"), Ok(Some(vec![1; 1000])));
}

#[test]
fn no_value_is_made() {
    let mut cache = filled();
    let mut is_made = false;
    let make = || {
        is_made = true;
        Vec::new()
    };
    let found = limited(999, || cache.get_or_insert_with(b"long", make));
    assert_eq!(found, Err(OutOfMemory));
    assert!(!is_made);
}

#[test]
fn an_iterator_gives_a_refused_pair_again() {
    let mut cache = filled();
    let mut pairs = cache.iter();
    let refused = limited(999, || pairs.next());
    assert_eq!(refused, Some(Err(OutOfMemory)));
    let (key, value) = pairs.next().unwrap().unwrap();
    assert_eq!((key, value.len()), (b"long".to_vec(), 1000));
    assert!(pairs.next().is_some());
    assert!(pairs.next().is_none());
    assert!(pairs.next().is_none());
}

#[test]
fn a_refused_entry_is_drained_again() {
    let mut cache = ByteCache::builder().removed_room(1).build().unwrap();
    cache.insert(b"long", [1; 1000]).unwrap();
    cache.clear();
    let refused = limited(999, || cache.removed().next());
    assert_eq!(refused, Some(Err(OutOfMemory)));
    let removed = cache.removed().next().unwrap().unwrap();
    assert_eq!(removed.value, [1; 1000]);
}

#[test]
fn a_shared_cache_is_not_built() {
    for limit in [0, 16, 255] {
        let built = limited(limit, || sync::ByteCache::new(100));
        assert_eq!(built.unwrap_err(), OutOfMemory);
    }
}

#[test]
fn a_shared_iterator_copies_a_refused_segment_again() {
    let cache = sync::ByteCache::builder().segments(1).build().unwrap();
    cache.insert(b"long", [1; 1000]).unwrap();
    cache.insert(b"short", [1; 10]).unwrap();
    let mut pairs = cache.iter();
    for limit in [0, 999] {
        let refused = limited(limit, || pairs.next());
        assert_eq!(refused, Some(Err(OutOfMemory)));
    }
    let lengths: Vec<_> = pairs.map(|pair| pair.unwrap().1.len()).collect();
    assert_eq!(lengths, [1000, 10]);
}

#[test]
fn a_shared_iterator_is_refused_the_memory_for_its_pairs() {
    let cache = sync::ByteCache::builder().segments(1).build().unwrap();
    for key in 0..10u8 {
        cache.insert([key], [key]).unwrap();
    }
    let mut pairs = cache.iter();
    // Each copy takes a byte, and the pairs take some 500.
    let refused = limited(100, || pairs.next());
    assert_eq!(refused, Some(Err(OutOfMemory)));
    assert_eq!(pairs.count(), 10);
}

#[test]
fn a_typed_insert_that_is_refused_memory_changes_nothing() {
    let refused = Err(OutOfMemory);
    let mut cache = Cache::new(100);
    assert_eq!(limited(0, || cache.try_insert(1, 10)), refused);
    let found = limited(0, || cache.get_or_insert_with(2, || 20));
    assert_eq!(found, ValueRef::Rejected(20));
    assert!(cache.is_empty());
    cache.insert(1, 10);
    assert_eq!(cache.get(&1), Some(&10));

    let cache = sync::Cache::builder().segments(1).build();
    assert_eq!(limited(0, || cache.try_insert(1, 10)), refused);
    assert!(cache.is_empty());
    // The slots are refused memory, but not the list of values that are being made.
    assert_eq!(limited(127, || cache.get_with(2, || 20)), 20);
    assert_eq!((cache.get(&2), cache.len()), (None, 0));
    assert_eq!(cache.get_with(2, || 22), 22);
    assert_eq!((cache.get(&2), cache.len()), (Some(22), 1));
}

/// A value of which four don't fit into the limit of `panic_of`.
const LARGE: [u8; 4000] = [0; 4000];

/// Returns the message of a call that panics, and is refused large allocations.
fn panic_of(call: impl FnOnce()) -> String {
    // The usual hook takes memory for a backtrace.
    let hook = take_hook();
    set_hook(Box::new(|_| ()));
    let made = limited(LARGE.len(), || catch_unwind(AssertUnwindSafe(call)));
    set_hook(hook);
    *made.unwrap_err().downcast().unwrap()
}

#[test]
fn a_typed_insert_panics_if_it_is_refused_memory() {
    let mut cache = Cache::new(100);
    let message = panic_of(|| assert_eq!(cache.insert(1, LARGE), Insertion::New));
    assert_eq!((message.as_str(), cache.len()), ("memory was refused", 0));
    let cache = sync::Cache::new(100);
    let message = panic_of(|| assert_eq!(cache.insert(1, LARGE), Insertion::New));
    assert_eq!((message.as_str(), cache.len()), ("memory was refused", 0));
}

#[test]
fn a_typed_cache_that_is_refused_memory_is_not_built() {
    let refused = limited(16, || {
        Cache::<u64, u64>::builder().initial_capacity(9).try_build()
    });
    assert_eq!(refused.map(drop), Err(BuildError::OutOfMemory));
    let refused = limited(16, || sync::Cache::<u64, u64>::builder().try_build());
    assert_eq!(refused.map(drop), Err(BuildError::OutOfMemory));
}
