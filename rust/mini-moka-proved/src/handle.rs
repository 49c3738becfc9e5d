//! The library's calls, and handles on its caches.
//!
//! The declarations repeat `include/mini_moka.h`. The comments cite its rules:
//!
//! - *Pointers.* A call reads and writes through its pointers, within the lengths that are passed,
//!   and keeps none of them. None may be null.
//! - *Handles.* A handle starts as all zeros. The program neither changes nor copies it, and makes
//!   one call on it at a time.

use crate::error::{OutOfMemory, TimedInsertError};
use std::cell::UnsafeCell;
use std::marker::PhantomData;
use std::os::raw::c_void;
use std::ptr::null_mut;

/// The library's value for no capacity or no duration.
pub(crate) const UNLIMITED: u64 = u64::MAX;

// The statuses of calls. The header's others are for a closed handle, an open one that is opened
// again, one of the other kind, an ended walk, a duration of 0 and a share above 100. No call of
// this module returns one of them.
const DONE: u32 = 0;
const ABSENT: u32 = 1;
const OUT_OF_MEMORY: u32 = 4;
const TOO_SHORT: u32 = 6;
const REJECTED: u32 = 9;
const NO_TIME_TO_LIVE: u32 = 11;

/// The header's `struct mini_moka`.
#[repr(C)]
struct RawHandle {
    at: *mut c_void,
    is_open: bool,
}

/// The header's `struct mini_moka_settings`.
#[repr(C)]
pub(crate) struct Settings {
    pub(crate) capacity: u64,
    pub(crate) time_to_live: u64,
    pub(crate) time_to_idle: u64,
    pub(crate) initial_capacity: usize,
    pub(crate) seed: [u64; 2],
    pub(crate) is_weighed: bool,
    pub(crate) removed_room: usize,
    pub(crate) window_share: u8,
    pub(crate) protected_share: u8,
    pub(crate) is_adaptive: bool,
}

/// The header's `struct mini_moka_u64_settings`.
#[repr(C)]
pub(crate) struct NumberSettings {
    pub(crate) capacity: u64,
    pub(crate) time_to_live: u64,
    pub(crate) time_to_idle: u64,
    pub(crate) initial_capacity: usize,
    pub(crate) removed_room: usize,
    pub(crate) window_share: u8,
    pub(crate) protected_share: u8,
    pub(crate) is_adaptive: bool,
    pub(crate) is_weighed: bool,
}

// The header's `struct mini_moka_statistics`.
/// Counts of the calls on a cache since it was built, and of the entries that left. Each count
/// stops at `u64::MAX`.
///
/// Until then `inserts - updates - rejections` equals `evictions + expirations + removals` plus the
/// number of entries.
///
/// If removed entries are queued, each entry that left was drained, is queued, was lost, or was
/// returned by `remove`. So the numbers of these add up to
/// `updates + rejections + evictions + expirations + removals`.
#[repr(C)]
#[derive(Clone, Copy, Debug, Default, PartialEq, Eq)]
pub struct Statistics {
    /// Gets that found a value.
    pub hits: u64,
    /// Gets that found none.
    pub misses: u64,
    /// Inserts that were not refused memory: of new entries, admitted or not, and updates.
    pub inserts: u64,
    /// Inserts that gave the key of an unexpired entry another value.
    pub updates: u64,
    /// New entries that the full cache did not admit.
    pub rejections: u64,
    /// Entries that were evicted for the capacity.
    pub evictions: u64,
    /// Entries that left as expired, also if an insert replaced them or a call of their key removed
    /// them.
    pub expirations: u64,
    /// Unexpired entries that a call of their key removed, and all that `clear` removed.
    pub removals: u64,
    /// Entries that left while the queue of removed entries was full. It stays 0 without a queue.
    pub lost: u64,
}

impl Statistics {
    /// Returns the part of the gets that found a value, from 0 to 1, or `None` if there was no get.
    ///
    /// ```
    /// use mini_moka_proved::NumberCache;
    ///
    /// let mut squares = NumberCache::new(100)?;
    /// assert_eq!(squares.statistics().hit_rate(), None);
    /// squares.get_or_insert(7, 49)?;
    /// squares.get(7);
    /// assert_eq!(squares.statistics().hit_rate(), Some(0.5));
    /// # Ok::<(), mini_moka_proved::OutOfMemory>(())
    /// ```
    pub fn hit_rate(&self) -> Option<f64> {
        let gets = self.hits as f64 + self.misses as f64;
        (gets > 0.0).then(|| self.hits as f64 / gets)
    }

    /// Adds up the counts of segments. Each count stops at `u64::MAX`.
    pub(crate) fn sum(parts: impl Iterator<Item = Statistics>) -> Statistics {
        parts.fold(Statistics::default(), |sum, one| Statistics {
            hits: sum.hits.saturating_add(one.hits),
            misses: sum.misses.saturating_add(one.misses),
            inserts: sum.inserts.saturating_add(one.inserts),
            updates: sum.updates.saturating_add(one.updates),
            rejections: sum.rejections.saturating_add(one.rejections),
            evictions: sum.evictions.saturating_add(one.evictions),
            expirations: sum.expirations.saturating_add(one.expirations),
            removals: sum.removals.saturating_add(one.removals),
            lost: sum.lost.saturating_add(one.lost),
        })
    }
}

/// The cause for which an entry left a cache, or was not admitted.
///
/// An expired entry that is still there may also be evicted, or removed by `clear`, which has no
/// moment. In any other call it leaves as expired.
#[derive(Clone, Copy, Debug, PartialEq, Eq, Hash)]
pub enum Cause {
    /// It was evicted for the capacity: other entries are used more.
    Size,
    /// Its time to live or to idle had passed, also if an insert replaced it or a call of its key
    /// removed it.
    Expired,
    /// A call of its key removed it while it was unexpired, or `clear` removed it.
    Explicit,
    /// An insert gave its key another value while it was unexpired.
    Replaced,
    /// It was new, and the full cache did not admit it.
    Rejected,
}

impl Cause {
    /// Converts a number of the header's `enum mini_moka_cause`.
    fn of(number: u32) -> Cause {
        match number {
            0 => Cause::Size,
            1 => Cause::Expired,
            2 => Cause::Explicit,
            3 => Cause::Replaced,
            4 => Cause::Rejected,
            other => unexpected(other),
        }
    }
}

/// An entry that left a cache, or was not admitted.
#[derive(Clone, Debug, PartialEq, Eq, Hash)]
pub struct Removed<T> {
    /// Its key.
    pub key: T,
    /// Its value.
    pub value: T,
    /// The cause for which it left.
    pub cause: Cause,
}

/// The result of an insert.
#[derive(Clone, Copy, Debug, PartialEq, Eq, Hash)]
pub enum Inserted {
    /// The value is in the cache.
    Stored,
    /// The full cache did not admit the new entry: it is too heavy, or used no more than the
    /// entries that it would have evicted. The cache has no entry of the key.
    Rejected,
}

/// A look-up of bytes: `mini_moka_get`, `mini_moka_peek` or `mini_moka_remove`.
type LookUp = unsafe extern "C" fn(
    handle: *mut RawHandle,
    key: *const c_void,
    key_length: usize,
    now: u64,
    buffer: *mut c_void,
    buffer_length: usize,
    length: *mut usize,
) -> u32;

/// A look-up of numbers.
type NumberLookUp =
    unsafe extern "C" fn(handle: *mut RawHandle, key: u64, now: u64, value: *mut u64) -> u32;

/// A call that writes a number, on a cache of either kind.
type Count = unsafe extern "C" fn(handle: *mut RawHandle, count: *mut u64) -> u32;

extern "C" {
    fn mini_moka_open(handle: *mut RawHandle, settings: *const Settings) -> u32;
    fn mini_moka_insert(
        handle: *mut RawHandle,
        key: *const c_void,
        key_length: usize,
        value: *const c_void,
        value_length: usize,
        now: u64,
    ) -> u32;
    fn mini_moka_insert_for(
        handle: *mut RawHandle,
        key: *const c_void,
        key_length: usize,
        value: *const c_void,
        value_length: usize,
        time_to_live: u64,
        now: u64,
    ) -> u32;
    fn mini_moka_get(
        handle: *mut RawHandle,
        key: *const c_void,
        key_length: usize,
        now: u64,
        buffer: *mut c_void,
        buffer_length: usize,
        length: *mut usize,
    ) -> u32;
    fn mini_moka_peek(
        handle: *mut RawHandle,
        key: *const c_void,
        key_length: usize,
        now: u64,
        buffer: *mut c_void,
        buffer_length: usize,
        length: *mut usize,
    ) -> u32;
    fn mini_moka_remove(
        handle: *mut RawHandle,
        key: *const c_void,
        key_length: usize,
        now: u64,
        buffer: *mut c_void,
        buffer_length: usize,
        length: *mut usize,
    ) -> u32;
    fn mini_moka_contains(
        handle: *mut RawHandle,
        key: *const c_void,
        key_length: usize,
        now: u64,
    ) -> u32;
    fn mini_moka_invalidate(
        handle: *mut RawHandle,
        key: *const c_void,
        key_length: usize,
        now: u64,
    ) -> u32;
    fn mini_moka_next(
        handle: *mut RawHandle,
        now: u64,
        key: *mut c_void,
        key_room: usize,
        value: *mut c_void,
        value_room: usize,
        key_length: *mut usize,
        value_length: *mut usize,
    ) -> u32;
    fn mini_moka_removed(
        handle: *mut RawHandle,
        key: *mut c_void,
        key_room: usize,
        value: *mut c_void,
        value_room: usize,
        key_length: *mut usize,
        value_length: *mut usize,
        cause: *mut u32,
    ) -> u32;

    fn mini_moka_u64_open(handle: *mut RawHandle, settings: *const NumberSettings) -> u32;
    fn mini_moka_u64_insert(handle: *mut RawHandle, key: u64, value: u64, now: u64) -> u32;
    fn mini_moka_u64_insert_for(
        handle: *mut RawHandle,
        key: u64,
        value: u64,
        time_to_live: u64,
        now: u64,
    ) -> u32;
    fn mini_moka_u64_get(handle: *mut RawHandle, key: u64, now: u64, value: *mut u64) -> u32;
    fn mini_moka_u64_peek(handle: *mut RawHandle, key: u64, now: u64, value: *mut u64) -> u32;
    fn mini_moka_u64_remove(handle: *mut RawHandle, key: u64, now: u64, value: *mut u64) -> u32;
    fn mini_moka_u64_contains(handle: *mut RawHandle, key: u64, now: u64) -> u32;
    fn mini_moka_u64_invalidate(handle: *mut RawHandle, key: u64, now: u64) -> u32;
    fn mini_moka_u64_next(handle: *mut RawHandle, now: u64, key: *mut u64, value: *mut u64) -> u32;
    fn mini_moka_u64_removed(
        handle: *mut RawHandle,
        key: *mut u64,
        value: *mut u64,
        cause: *mut u32,
    ) -> u32;
    fn mini_moka_u64_get_or_insert(
        handle: *mut RawHandle,
        key: u64,
        otherwise: u64,
        now: u64,
        value: *mut u64,
    ) -> u32;

    fn mini_moka_close(handle: *mut RawHandle) -> u32;
    fn mini_moka_invalidate_all(handle: *mut RawHandle) -> u32;
    fn mini_moka_remove_expired(handle: *mut RawHandle, now: u64) -> u32;
    fn mini_moka_count(handle: *mut RawHandle, count: *mut u64) -> u32;
    fn mini_moka_weight(handle: *mut RawHandle, weight: *mut u64) -> u32;
    fn mini_moka_window(handle: *mut RawHandle, weight: *mut u64) -> u32;
    fn mini_moka_statistics(handle: *mut RawHandle, statistics: *mut Statistics) -> u32;
    fn mini_moka_walk(handle: *mut RawHandle) -> u32;
}

/// The kind of a handle with a cache of bytes.
pub(crate) enum Bytes {}

/// The kind of a handle with a cache of numbers.
pub(crate) enum Numbers {}

/// A handle of the library, which is open from its return by `open` until it is dropped.
///
/// The library's handle stays at one address, in a vector of one: a `Box` would abort if memory is
/// refused. The cell lets the library change it in calls that take `&self`. It also keeps threads
/// from sharing a `Handle`, so there is one call on it at a time.
pub(crate) struct Handle<Kind> {
    place: Vec<UnsafeCell<RawHandle>>,
    kind: PhantomData<Kind>,
}

// SAFETY: the cache belongs to its handle alone, and the library keeps no thread-local state: its
// handle is proved to be `Send`. The header allows calls by several threads, one at a time.
unsafe impl<Kind> Send for Handle<Kind> {}

impl<Kind> Handle<Kind> {
    /// Creates a closed handle.
    fn closed() -> Result<Handle<Kind>, OutOfMemory> {
        let mut place = Vec::new();
        place.try_reserve_exact(1)?;
        place.push(UnsafeCell::new(RawHandle {
            at: null_mut(),
            is_open: false,
        }));
        let kind = PhantomData;
        Ok(Handle { place, kind })
    }

    /// Returns the address of the library's handle, for one call of the library.
    fn at(&self) -> *mut RawHandle {
        self.place[0].get()
    }

    /// Counts the entries, including expired ones that no call has removed yet.
    pub(crate) fn len(&self) -> u64 {
        self.count(mini_moka_count)
    }

    /// Sums the weights of the entries, at most `u64::MAX`.
    pub(crate) fn weighted_size(&self) -> u64 {
        self.count(mini_moka_weight)
    }

    /// Returns the weight that the window may have, 0 without a window.
    pub(crate) fn window_capacity(&self) -> u64 {
        self.count(mini_moka_window)
    }

    fn count(&self, call: Count) -> u64 {
        let mut count = 0;
        // SAFETY: `at` points to a handle that keeps the rules, which this `Handle` owns, and
        // `count` is a local variable.
        let status = unsafe { call(self.at(), &mut count) };
        expect_done(status);
        count
    }

    /// Removes all entries.
    pub(crate) fn clear(&self) {
        // SAFETY: `at` points to a handle that keeps the rules, and there is no other pointer.
        let status = unsafe { mini_moka_invalidate_all(self.at()) };
        expect_done(status);
    }

    /// Removes all expired entries.
    pub(crate) fn remove_expired(&self, now: u64) {
        // SAFETY: `at` points to a handle that keeps the rules, and there is no other pointer.
        let status = unsafe { mini_moka_remove_expired(self.at(), now) };
        expect_done(status);
    }
}

impl<Kind> Handle<Kind> {
    /// Begins a walk over the unexpired entries. Each call that may change the cache ends it,
    /// unless it is refused memory.
    pub(crate) fn begin_walk(&self) {
        // SAFETY: `at` points to a handle that keeps the rules, and there is no other pointer.
        let status = unsafe { mini_moka_walk(self.at()) };
        expect_done(status);
    }

    /// Returns the counts of the calls and of the entries that left.
    pub(crate) fn statistics(&self) -> Statistics {
        let mut statistics = Statistics::default();
        // SAFETY: `at` points to a handle that keeps the rules, and `statistics` is a local
        // variable with the layout of the header's struct.
        let status = unsafe { mini_moka_statistics(self.at(), &mut statistics) };
        expect_done(status);
        statistics
    }
}

impl<Kind> Drop for Handle<Kind> {
    fn drop(&mut self) {
        // SAFETY: `at` points to a handle that keeps the rules, closed or open, and this call is
        // the last one on it.
        unsafe { mini_moka_close(self.at()) };
    }
}

/// The result of a look-up of bytes.
pub(crate) enum Look {
    /// A value, which is now in the buffer.
    Copied,
    /// No unexpired entry. The buffer is empty.
    Absent,
    /// A value of this length, which exceeds the buffer's capacity. The buffer is empty.
    TooLong(usize),
}

/// The result of a step of a walk.
pub(crate) enum Step {
    /// An entry, whose key and value are now in the buffers.
    Copied,
    /// No entry: the walk has visited each one. The buffers are empty.
    Ended,
    /// An entry with a key and a value of these lengths, of which at least one exceeds its buffer's
    /// capacity. Both buffers are empty, and the walk stays at the entry.
    TooLong { key: usize, value: usize },
}

/// The result of a drain.
pub(crate) enum Drained {
    /// An entry that left for this cause, whose key and value are now in the buffers.
    Copied(Cause),
    /// No entry. The buffers are empty.
    Empty,
    /// An entry with a key and a value of these lengths, of which at least one exceeds its buffer's
    /// capacity. Both buffers are empty, and the entry stays at the front.
    TooLong { key: usize, value: usize },
}

impl Handle<Bytes> {
    /// Opens a handle with a new cache of bytes.
    pub(crate) fn open(settings: &Settings) -> Result<Handle<Bytes>, OutOfMemory> {
        let handle = Handle::<Bytes>::closed()?;
        // SAFETY: `at` points to a handle of zeros, which `handle` owns, and `settings` to a struct
        // with the layout of the header's.
        let status = unsafe { mini_moka_open(handle.at(), settings) };
        written(status)?;
        Ok(handle)
    }

    /// Inserts a copy of the value under a copy of the key.
    pub(crate) fn insert(
        &self,
        key: &[u8],
        value: &[u8],
        now: u64,
    ) -> Result<Inserted, OutOfMemory> {
        // SAFETY: `at` points to a handle that keeps the rules. Both slices have the lengths that
        // are passed, their pointers are never null, and the library only reads them.
        let status = unsafe {
            mini_moka_insert(
                self.at(),
                key.as_ptr().cast(),
                key.len(),
                value.as_ptr().cast(),
                value.len(),
                now,
            )
        };
        inserted(status)
    }

    /// Inserts a copy of the value under a copy of the key, with its own time to live.
    pub(crate) fn insert_for(
        &self,
        key: &[u8],
        value: &[u8],
        time_to_live: u64,
        now: u64,
    ) -> Result<Inserted, TimedInsertError> {
        // SAFETY: as of `insert`.
        let status = unsafe {
            mini_moka_insert_for(
                self.at(),
                key.as_ptr().cast(),
                key.len(),
                value.as_ptr().cast(),
                value.len(),
                time_to_live,
                now,
            )
        };
        inserted_for(status)
    }

    /// Looks up the key, which counts as an access.
    pub(crate) fn get(&self, key: &[u8], now: u64, buffer: &mut Vec<u8>) -> Look {
        self.look_up(mini_moka_get, key, now, buffer)
    }

    /// Looks up the key, which doesn't count as an access.
    pub(crate) fn peek(&self, key: &[u8], now: u64, buffer: &mut Vec<u8>) -> Look {
        self.look_up(mini_moka_peek, key, now, buffer)
    }

    /// Removes the entry of the key. It stays if its value is too long for the buffer.
    pub(crate) fn remove(&self, key: &[u8], now: u64, buffer: &mut Vec<u8>) -> Look {
        self.look_up(mini_moka_remove, key, now, buffer)
    }

    /// Makes the call, and lets it write to the vector's whole capacity.
    fn look_up(&self, call: LookUp, key: &[u8], now: u64, buffer: &mut Vec<u8>) -> Look {
        buffer.clear();
        let mut length = 0;
        // SAFETY: `at` points to a handle that keeps the rules. The slice has the length that is
        // passed, and the vector owns as many bytes as its capacity, which the library only writes.
        // Neither pointer is ever null, and `length` is a local variable.
        let status = unsafe {
            call(
                self.at(),
                key.as_ptr().cast(),
                key.len(),
                now,
                buffer.as_mut_ptr().cast(),
                buffer.capacity(),
                &mut length,
            )
        };
        match status {
            DONE => {
                // SAFETY: the library has written the first `length` bytes of the vector's
                // capacity, and returns `DONE` only if the capacity has that many.
                unsafe { buffer.set_len(length) };
                Look::Copied
            }
            ABSENT => Look::Absent,
            TOO_SHORT => Look::TooLong(length),
            other => unexpected(other),
        }
    }

    /// Returns `true` if the key has an unexpired entry.
    pub(crate) fn contains(&self, key: &[u8], now: u64) -> bool {
        // SAFETY: `at` points to a handle that keeps the rules. The slice has the length that is
        // passed, its pointer is never null, and the library only reads it.
        is_there(unsafe { mini_moka_contains(self.at(), key.as_ptr().cast(), key.len(), now) })
    }

    /// Removes the entry of the key, if there is one.
    pub(crate) fn invalidate(&self, key: &[u8], now: u64) {
        // SAFETY: as in `contains`.
        let status =
            unsafe { mini_moka_invalidate(self.at(), key.as_ptr().cast(), key.len(), now) };
        expect_done(status);
    }

    /// Makes a step of the walk, and lets it write to the whole capacities of both vectors.
    pub(crate) fn step(
        &self,
        now: u64,
        key: &mut Vec<u8>,
        value: &mut Vec<u8>,
    ) -> Result<Step, OutOfMemory> {
        key.clear();
        value.clear();
        let (mut key_length, mut value_length) = (0, 0);
        // SAFETY: `at` points to a handle that keeps the rules. Each vector owns as many bytes as
        // its capacity, which the library only writes, and its pointer is never null. Both lengths
        // are local variables.
        let status = unsafe {
            mini_moka_next(
                self.at(),
                now,
                key.as_mut_ptr().cast(),
                key.capacity(),
                value.as_mut_ptr().cast(),
                value.capacity(),
                &mut key_length,
                &mut value_length,
            )
        };
        match status {
            DONE => {
                // SAFETY: the library has written the first `key_length` and `value_length` bytes
                // of the capacities, and returns `DONE` only if the capacities have that many.
                unsafe {
                    key.set_len(key_length);
                    value.set_len(value_length);
                }
                Ok(Step::Copied)
            }
            ABSENT => Ok(Step::Ended),
            TOO_SHORT => Ok(Step::TooLong {
                key: key_length,
                value: value_length,
            }),
            OUT_OF_MEMORY => Err(OutOfMemory),
            other => unexpected(other),
        }
    }

    /// Drains a removed entry, and lets the call write to the whole capacities of both vectors.
    pub(crate) fn drain(&self, key: &mut Vec<u8>, value: &mut Vec<u8>) -> Drained {
        key.clear();
        value.clear();
        let (mut key_length, mut value_length, mut cause) = (0, 0, 0);
        // SAFETY: as in `step`, and the cause is a local variable too.
        let status = unsafe {
            mini_moka_removed(
                self.at(),
                key.as_mut_ptr().cast(),
                key.capacity(),
                value.as_mut_ptr().cast(),
                value.capacity(),
                &mut key_length,
                &mut value_length,
                &mut cause,
            )
        };
        match status {
            DONE => {
                // SAFETY: as in `step`.
                unsafe {
                    key.set_len(key_length);
                    value.set_len(value_length);
                }
                Drained::Copied(Cause::of(cause))
            }
            ABSENT => Drained::Empty,
            TOO_SHORT => Drained::TooLong {
                key: key_length,
                value: value_length,
            },
            other => unexpected(other),
        }
    }
}

impl Handle<Numbers> {
    /// Opens a handle with a new cache of numbers.
    pub(crate) fn open(settings: &NumberSettings) -> Result<Handle<Numbers>, OutOfMemory> {
        let handle = Handle::<Numbers>::closed()?;
        // SAFETY: `at` points to a handle of zeros, which `handle` owns, and `settings` to a struct
        // with the layout of the header's.
        let status = unsafe { mini_moka_u64_open(handle.at(), settings) };
        written(status)?;
        Ok(handle)
    }

    /// Inserts the value under the key.
    pub(crate) fn insert(&self, key: u64, value: u64, now: u64) -> Result<Inserted, OutOfMemory> {
        // SAFETY: `at` points to a handle that keeps the rules, and there is no other pointer.
        let status = unsafe { mini_moka_u64_insert(self.at(), key, value, now) };
        inserted(status)
    }

    /// Inserts the value under the key, with its own time to live.
    pub(crate) fn insert_for(
        &self,
        key: u64,
        value: u64,
        time_to_live: u64,
        now: u64,
    ) -> Result<Inserted, TimedInsertError> {
        // SAFETY: as of `insert`.
        let status = unsafe { mini_moka_u64_insert_for(self.at(), key, value, time_to_live, now) };
        inserted_for(status)
    }

    /// Looks up the key, which counts as an access.
    pub(crate) fn get(&self, key: u64, now: u64) -> Option<u64> {
        self.look_up(mini_moka_u64_get, key, now)
    }

    /// Looks up the key, which doesn't count as an access.
    pub(crate) fn peek(&self, key: u64, now: u64) -> Option<u64> {
        self.look_up(mini_moka_u64_peek, key, now)
    }

    /// Removes the entry of the key.
    pub(crate) fn remove(&self, key: u64, now: u64) -> Option<u64> {
        self.look_up(mini_moka_u64_remove, key, now)
    }

    fn look_up(&self, call: NumberLookUp, key: u64, now: u64) -> Option<u64> {
        let mut value = 0;
        // SAFETY: `at` points to a handle that keeps the rules, and `value` is a local variable.
        let status = unsafe { call(self.at(), key, now, &mut value) };
        is_there(status).then_some(value)
    }

    /// Returns `true` if the key has an unexpired entry.
    pub(crate) fn contains(&self, key: u64, now: u64) -> bool {
        // SAFETY: `at` points to a handle that keeps the rules, and there is no other pointer.
        let status = unsafe { mini_moka_u64_contains(self.at(), key, now) };
        is_there(status)
    }

    /// Removes the entry of the key, if there is one.
    pub(crate) fn invalidate(&self, key: u64, now: u64) {
        // SAFETY: `at` points to a handle that keeps the rules, and there is no other pointer.
        let status = unsafe { mini_moka_u64_invalidate(self.at(), key, now) };
        expect_done(status);
    }

    /// Makes a step of the walk, and returns the next entry.
    pub(crate) fn step(&self, now: u64) -> Option<(u64, u64)> {
        let (mut key, mut value) = (0, 0);
        // SAFETY: `at` points to a handle that keeps the rules, and `key` and `value` are local
        // variables.
        let status = unsafe { mini_moka_u64_next(self.at(), now, &mut key, &mut value) };
        is_there(status).then_some((key, value))
    }

    /// Drains a removed entry.
    pub(crate) fn drain(&self) -> Option<Removed<u64>> {
        let (mut key, mut value, mut cause) = (0, 0, 0);
        // SAFETY: `at` points to a handle that keeps the rules, and `key`, `value` and `cause` are
        // local variables.
        let status = unsafe { mini_moka_u64_removed(self.at(), &mut key, &mut value, &mut cause) };
        is_there(status).then(|| Removed {
            key,
            value,
            cause: Cause::of(cause),
        })
    }

    /// Looks up the key, and inserts `otherwise` if it has no value.
    pub(crate) fn get_or_insert(
        &self,
        key: u64,
        otherwise: u64,
        now: u64,
    ) -> Result<u64, OutOfMemory> {
        let mut value = 0;
        // SAFETY: `at` points to a handle that keeps the rules, and `value` is a local variable.
        let status =
            unsafe { mini_moka_u64_get_or_insert(self.at(), key, otherwise, now, &mut value) };
        written(status)?;
        Ok(value)
    }
}

/// Converts the status of a call that may be refused memory.
fn written(status: u32) -> Result<(), OutOfMemory> {
    match status {
        DONE => Ok(()),
        OUT_OF_MEMORY => Err(OutOfMemory),
        other => unexpected(other),
    }
}

/// Converts the status of an insert.
fn inserted(status: u32) -> Result<Inserted, OutOfMemory> {
    if status == REJECTED {
        return Ok(Inserted::Rejected);
    }
    written(status).map(|()| Inserted::Stored)
}

/// Converts the status of an insert with its own time to live.
fn inserted_for(status: u32) -> Result<Inserted, TimedInsertError> {
    if status == NO_TIME_TO_LIVE {
        return Err(TimedInsertError::NoTimeToLive);
    }
    Ok(inserted(status)?)
}

/// Converts the status of a call that allocates nothing. Returns `true` if it found an entry.
fn is_there(status: u32) -> bool {
    match status {
        DONE => true,
        ABSENT => false,
        other => unexpected(other),
    }
}

/// Panics if the status isn't `DONE`, for a call that is never refused.
fn expect_done(status: u32) {
    if status != DONE {
        unexpected(status);
    }
}

/// Panics at a status that the header rules out.
fn unexpected(status: u32) -> ! {
    panic!("libmini_moka.a doesn't match this package's header: a call returned {status}")
}
