//! The cache of bytes that threads share.

use super::lock::Lock;
use super::{segment_of, segments_of};
use crate::byte_builder;
use crate::clock::{Clock, ManualClock};
use crate::error::{BuildError, OutOfMemory, TimedInsertError};
use crate::handle::{Inserted, Removed, Statistics};
use std::fmt;
use std::iter::FusedIterator;
use std::sync::{Arc, MutexGuard};
use std::time::Duration;

/// A cache that threads share, whose keys and values are bytes of any length.
///
/// A clone is another handle on the same cache. The cache stores copies, and returns copies.
///
/// ```
/// use mini_moka_proved::sync::ByteCache;
/// use std::thread;
///
/// let cache = ByteCache::new(10_000)?;
/// let threads: Vec<_> = (0..4u8)
///     .map(|number| {
///         let cache = cache.clone();
///         thread::spawn(move || cache.insert([number], "seen"))
///     })
///     .collect();
/// for thread in threads {
///     thread.join().unwrap()?;
/// }
/// assert_eq!(cache.len(), 4);
/// # Ok::<(), mini_moka_proved::OutOfMemory>(())
/// ```
///
/// # Segments
///
/// A key belongs to one segment, which has its part of the capacity and its own admission policy. A
/// call waits only for calls in the same segment. If keys are unevenly spread, one segment rejects
/// entries while another has capacity left.
///
/// # Calls
///
/// The calls are those of [`crate::ByteCache`], on `&self`. A call with a key is one step: another
/// thread sees the cache before it or after it. Only
/// [`get_or_insert_with`](Self::get_or_insert_with) is two steps, a look-up and an insert. Calls on
/// all segments, as [`len`](Self::len), lock one segment after another.
///
/// All segments read one clock. Each call that needs a moment has a second form, whose name ends in
/// `_at`. It takes the moment as a duration since the clock's start.
///
/// # Memory
///
/// Only building a cache can abort if memory is refused, for the block that its clones share.
pub struct ByteCache {
    shared: Arc<Shared>,
}

struct Shared {
    segments: Vec<Segment>,
    seed: u64,
    clock: Clock,
}

/// A segment, which fills its cache lines, so that threads in different segments don't share one.
#[repr(align(128))]
struct Segment {
    cache: Lock<crate::ByteCache>,
}

impl ByteCache {
    /// Creates a cache of at most `max_capacity` entries, which don't expire.
    ///
    /// # Errors
    ///
    /// [`OutOfMemory`] if memory is refused.
    pub fn new(max_capacity: u64) -> Result<ByteCache, OutOfMemory> {
        let built = ByteCache::builder().max_capacity(max_capacity).build();
        // Without a duration there is no other error.
        built.map_err(|_| OutOfMemory)
    }

    /// Returns a builder of caches.
    pub fn builder() -> ByteBuilder {
        ByteBuilder::default()
    }

    /// Looks up the key, and returns a copy of its value.
    ///
    /// The key is counted, found or not, and its entry becomes the most recently used one of its
    /// segment. If memory is refused, it returns `None`.
    pub fn get(&self, key: impl AsRef<[u8]>) -> Option<Vec<u8>> {
        self.get_at(key, self.now())
    }

    /// Looks up the key as [`get`](Self::get) does, at the moment `now`.
    pub fn get_at(&self, key: impl AsRef<[u8]>, now: Duration) -> Option<Vec<u8>> {
        self.try_get_at(key, now).ok().flatten()
    }

    /// Looks up the key as [`get`](Self::get) does, and distinguishes a key without an entry from
    /// refused memory.
    ///
    /// # Errors
    ///
    /// Those of [`crate::ByteCache::try_get`].
    pub fn try_get(&self, key: impl AsRef<[u8]>) -> Result<Option<Vec<u8>>, OutOfMemory> {
        self.try_get_at(key, self.now())
    }

    /// Looks up the key as [`try_get`](Self::try_get) does, at the moment `now`.
    ///
    /// # Errors
    ///
    /// Those of [`crate::ByteCache::try_get`].
    pub fn try_get_at(
        &self,
        key: impl AsRef<[u8]>,
        now: Duration,
    ) -> Result<Option<Vec<u8>>, OutOfMemory> {
        let key = key.as_ref();
        self.segment(key).try_get_at(key, now)
    }

    /// Looks up the key as [`get`](Self::get) does, and writes its value to `buffer`. Returns
    /// `true` if there is one. If no value is found, the buffer is empty.
    ///
    /// ```
    /// use mini_moka_proved::sync::ByteCache;
    ///
    /// let cache = ByteCache::new(10_000)?;
    /// cache.insert("alice", "admin")?;
    /// let mut role = Vec::new();
    /// assert!(cache.get_into("alice", &mut role)?);
    /// assert_eq!(role, b"admin");
    /// # Ok::<(), mini_moka_proved::OutOfMemory>(())
    /// ```
    ///
    /// # Errors
    ///
    /// Those of [`crate::ByteCache::get_into`].
    pub fn get_into(
        &self,
        key: impl AsRef<[u8]>,
        buffer: &mut Vec<u8>,
    ) -> Result<bool, OutOfMemory> {
        self.get_into_at(key, buffer, self.now())
    }

    /// Looks up the key as [`get_into`](Self::get_into) does, at the moment `now`.
    ///
    /// # Errors
    ///
    /// Those of [`crate::ByteCache::get_into`].
    pub fn get_into_at(
        &self,
        key: impl AsRef<[u8]>,
        buffer: &mut Vec<u8>,
        now: Duration,
    ) -> Result<bool, OutOfMemory> {
        let key = key.as_ref();
        self.segment(key).get_into_at(key, buffer, now)
    }

    /// Looks up the key, and returns a copy of its value. It doesn't count as an access.
    pub fn peek(&self, key: impl AsRef<[u8]>) -> Option<Vec<u8>> {
        self.peek_at(key, self.now())
    }

    /// Looks up the key as [`peek`](Self::peek) does, at the moment `now`.
    pub fn peek_at(&self, key: impl AsRef<[u8]>, now: Duration) -> Option<Vec<u8>> {
        let key = key.as_ref();
        self.segment(key).peek_at(key, now)
    }

    /// Returns `true` if the key has an unexpired entry. It doesn't count as an access.
    pub fn contains_key(&self, key: impl AsRef<[u8]>) -> bool {
        self.contains_key_at(key, self.now())
    }

    /// Looks up the key as [`contains_key`](Self::contains_key) does, at the moment `now`.
    pub fn contains_key_at(&self, key: impl AsRef<[u8]>, now: Duration) -> bool {
        let key = key.as_ref();
        self.segment(key).contains_key_at(key, now)
    }

    /// Looks up the key as [`get`](Self::get) does, and inserts the value that `make` returns if
    /// the key has none. Returns the key's value, or that of `make`, even if its entry was
    /// rejected.
    ///
    /// No lock is held while `make` runs, so it may call the cache. Threads that look up an absent
    /// key at the same time each call `make`, and the last insert stays: no thread waits for
    /// another's value.
    ///
    /// ```
    /// use mini_moka_proved::sync::ByteCache;
    ///
    /// let cache = ByteCache::new(10_000)?;
    /// assert_eq!(cache.get_or_insert_with("page", || b"made".to_vec())?, b"made");
    /// assert_eq!(cache.get_or_insert_with("page", || unreachable!())?, b"made");
    /// # Ok::<(), mini_moka_proved::OutOfMemory>(())
    /// ```
    ///
    /// # Errors
    ///
    /// Those of [`crate::ByteCache::get_or_insert_with`].
    pub fn get_or_insert_with(
        &self,
        key: impl AsRef<[u8]>,
        make: impl FnOnce() -> Vec<u8>,
    ) -> Result<Vec<u8>, OutOfMemory> {
        let key = key.as_ref();
        if let Some(value) = self.try_get(key)? {
            return Ok(value);
        }
        let value = make();
        self.insert(key, &value)?;
        Ok(value)
    }

    /// Looks up the key as [`get_or_insert_with`](Self::get_or_insert_with) does, at the moment
    /// `now`, which is also that of the insert.
    ///
    /// # Errors
    ///
    /// Those of [`crate::ByteCache::get_or_insert_with`].
    pub fn get_or_insert_with_at(
        &self,
        key: impl AsRef<[u8]>,
        make: impl FnOnce() -> Vec<u8>,
        now: Duration,
    ) -> Result<Vec<u8>, OutOfMemory> {
        let key = key.as_ref();
        if let Some(value) = self.try_get_at(key, now)? {
            return Ok(value);
        }
        let value = make();
        self.insert_at(key, &value, now)?;
        Ok(value)
    }

    /// Inserts a copy of the value under a copy of the key. If the segment is full, a new entry
    /// that doesn't fit in its window may be rejected: [`Inserted::Rejected`].
    ///
    /// # Errors
    ///
    /// Those of [`crate::ByteCache::insert`].
    pub fn insert(
        &self,
        key: impl AsRef<[u8]>,
        value: impl AsRef<[u8]>,
    ) -> Result<Inserted, OutOfMemory> {
        self.insert_at(key, value, self.now())
    }

    /// Inserts copies of the key and the value as [`insert`](Self::insert) does, at the moment
    /// `now`.
    ///
    /// # Errors
    ///
    /// Those of [`crate::ByteCache::insert`].
    pub fn insert_at(
        &self,
        key: impl AsRef<[u8]>,
        value: impl AsRef<[u8]>,
        now: Duration,
    ) -> Result<Inserted, OutOfMemory> {
        // Both are called before the lock is taken: they may call the cache.
        let (key, value) = (key.as_ref(), value.as_ref());
        self.segment(key).insert_at(key, value, now)
    }

    /// Inserts copies of the key and the value as [`insert`](Self::insert) does, with a time to
    /// live of its own. The entry expires after that, or after the cache's time to live if that is
    /// shorter.
    ///
    /// # Errors
    ///
    /// Those of [`crate::ByteCache::insert_with_time_to_live`].
    pub fn insert_with_time_to_live(
        &self,
        key: impl AsRef<[u8]>,
        value: impl AsRef<[u8]>,
        time_to_live: Duration,
    ) -> Result<Inserted, TimedInsertError> {
        self.insert_with_time_to_live_at(key, value, time_to_live, self.now())
    }

    /// Inserts copies of the key and the value as
    /// [`insert_with_time_to_live`](Self::insert_with_time_to_live) does, at the moment `now`.
    ///
    /// # Errors
    ///
    /// Those of [`crate::ByteCache::insert_with_time_to_live`].
    pub fn insert_with_time_to_live_at(
        &self,
        key: impl AsRef<[u8]>,
        value: impl AsRef<[u8]>,
        time_to_live: Duration,
        now: Duration,
    ) -> Result<Inserted, TimedInsertError> {
        // Both are called before the lock is taken: they may call the cache.
        let (key, value) = (key.as_ref(), value.as_ref());
        self.segment(key)
            .insert_with_time_to_live_at(key, value, time_to_live, now)
    }

    /// Removes the entry of the key, and returns its value, unless it is expired.
    ///
    /// # Errors
    ///
    /// Those of [`crate::ByteCache::remove`]. Then the entry stays.
    pub fn remove(&self, key: impl AsRef<[u8]>) -> Result<Option<Vec<u8>>, OutOfMemory> {
        self.remove_at(key, self.now())
    }

    /// Removes the entry of the key as [`remove`](Self::remove) does, at the moment `now`.
    ///
    /// # Errors
    ///
    /// Those of [`crate::ByteCache::remove`]. Then the entry stays.
    pub fn remove_at(
        &self,
        key: impl AsRef<[u8]>,
        now: Duration,
    ) -> Result<Option<Vec<u8>>, OutOfMemory> {
        let key = key.as_ref();
        self.segment(key).remove_at(key, now)
    }

    /// Removes the entry of the key, if there is one, without returning its value. It is never
    /// refused memory.
    pub fn invalidate(&self, key: impl AsRef<[u8]>) {
        self.invalidate_at(key, self.now());
    }

    /// Removes the entry of the key as [`invalidate`](Self::invalidate) does, at the moment `now`.
    pub fn invalidate_at(&self, key: impl AsRef<[u8]>, now: Duration) {
        let key = key.as_ref();
        self.segment(key).invalidate_at(key, now);
    }

    /// Removes all expired entries, one segment after another, as
    /// [`crate::ByteCache::remove_expired`] does.
    pub fn remove_expired(&self) {
        self.remove_expired_at(self.now());
    }

    /// Removes all entries that are expired at the moment `now`.
    pub fn remove_expired_at(&self, now: Duration) {
        for segment in &self.shared.segments {
            segment.cache.lock().remove_expired_at(now);
        }
    }

    /// Removes all entries, one segment after another.
    pub fn clear(&self) {
        for segment in &self.shared.segments {
            segment.cache.lock().clear();
        }
    }

    /// Returns an iterator over copies of the unexpired entries, as pairs of key and value, one
    /// segment after another. It doesn't count as an access, and removes none.
    ///
    /// When the iterator reaches a segment, it copies the segment's entries under its lock. So no
    /// thread waits for the rest of the iteration, and each key comes once at most. If memory for
    /// the copies of a segment is refused, the iterator yields an error, and tries that segment
    /// again next.
    ///
    /// ```
    /// use mini_moka_proved::sync::ByteCache;
    ///
    /// let cache = ByteCache::new(10_000)?;
    /// cache.insert("alice", "admin")?;
    /// for pair in &cache {
    ///     let (name, role) = pair?;
    ///     assert_eq!((name, role), (b"alice".to_vec(), b"admin".to_vec()));
    /// }
    /// # Ok::<(), mini_moka_proved::OutOfMemory>(())
    /// ```
    pub fn iter(&self) -> ByteIter<'_> {
        self.iter_at(self.now())
    }

    /// Returns an iterator as [`iter`](Self::iter) does, at the moment `now`.
    pub fn iter_at(&self, now: Duration) -> ByteIter<'_> {
        ByteIter {
            left: &self.shared.segments,
            copied: Vec::new().into_iter(),
            now,
        }
    }

    /// Returns an iterator that drains the removed entries, as [`crate::ByteCache::removed`] does, one
    /// segment after another. Those of one key come in the order in which they left.
    ///
    /// A step locks a segment only while it copies an entry. Threads that drain at the same time
    /// share the entries.
    ///
    /// ```
    /// use mini_moka_proved::sync::ByteCache;
    ///
    /// let cache = ByteCache::builder().max_capacity(1000).removed_room(100).build()?;
    /// cache.insert("alice", "admin")?;
    /// cache.invalidate("alice");
    /// let removed = cache.removed().next().transpose()?.unwrap();
    /// assert_eq!(removed.value, b"admin");
    /// # Ok::<(), Box<dyn std::error::Error>>(())
    /// ```
    pub fn removed(&self) -> ByteRemovedIter<'_> {
        ByteRemovedIter {
            left: &self.shared.segments,
        }
    }

    /// Returns the number of entries, including expired ones that no call has removed yet.
    pub fn len(&self) -> usize {
        let segments = self.shared.segments.iter();
        segments.map(|segment| segment.cache.lock().len()).sum()
    }

    /// Returns `true` if no segment has an entry, not even an expired one.
    pub fn is_empty(&self) -> bool {
        let mut segments = self.shared.segments.iter();
        segments.all(|segment| segment.cache.lock().is_empty())
    }

    /// Returns the weight of the entries, at most `u64::MAX`.
    pub fn weighted_size(&self) -> u64 {
        let segments = self.shared.segments.iter();
        segments
            .map(|segment| segment.cache.lock().weighted_size())
            .fold(0, u64::saturating_add)
    }

    /// Returns the weight that the windows of all segments may have now, at most `u64::MAX`. Each
    /// is that of [`crate::ByteCache::window_capacity`].
    pub fn window_capacity(&self) -> u64 {
        let segments = self.shared.segments.iter();
        segments
            .map(|segment| segment.cache.lock().window_capacity())
            .fold(0, u64::saturating_add)
    }

    /// Returns the counts of the calls, and of the entries that left, since the cache was built.
    pub fn statistics(&self) -> Statistics {
        let segments = self.shared.segments.iter();
        Statistics::sum(segments.map(|segment| segment.cache.lock().statistics()))
    }

    /// Returns the number of segments.
    pub fn segments(&self) -> usize {
        self.shared.segments.len()
    }

    /// Returns the current moment of the cache's clock. If the cache has no duration, it is always
    /// zero, or that of its [`ManualClock`].
    pub fn now(&self) -> Duration {
        self.shared.clock.elapsed()
    }

    /// Locks the segment of a key.
    fn segment(&self, key: &[u8]) -> MutexGuard<'_, crate::ByteCache> {
        let segments = &self.shared.segments;
        let hash = hash(self.shared.seed, key);
        segments[segment_of(hash, segments.len())].cache.lock()
    }
}

impl Segment {
    /// Copies the unexpired entries.
    fn pairs(&self, now: Duration) -> Result<Vec<Pair>, OutOfMemory> {
        let mut cache = self.cache.lock();
        let mut pairs = Vec::new();
        pairs.try_reserve_exact(cache.len())?;
        for pair in cache.iter_at(now) {
            pairs.push(pair?);
        }
        Ok(pairs)
    }
}

/// A pair of a key and its value.
type Pair = (Vec<u8>, Vec<u8>);

/// An iterator over copies of the unexpired entries of a cache that threads share, created by
/// [`ByteCache::iter`].
pub struct ByteIter<'a> {
    // The segments that haven't been copied.
    left: &'a [Segment],
    copied: std::vec::IntoIter<Pair>,
    now: Duration,
}

impl Iterator for ByteIter<'_> {
    type Item = Result<Pair, OutOfMemory>;

    fn next(&mut self) -> Option<Self::Item> {
        loop {
            if let Some(pair) = self.copied.next() {
                return Some(Ok(pair));
            }
            let (segment, left) = self.left.split_first()?;
            match segment.pairs(self.now) {
                Ok(pairs) => {
                    self.copied = pairs.into_iter();
                    self.left = left;
                }
                Err(error) => return Some(Err(error)),
            }
        }
    }

    fn size_hint(&self) -> (usize, Option<usize>) {
        // A refused segment is tried again, so there is no upper bound.
        (self.copied.len(), None)
    }
}

impl FusedIterator for ByteIter<'_> {}

impl fmt::Debug for ByteIter<'_> {
    fn fmt(&self, f: &mut fmt::Formatter<'_>) -> fmt::Result {
        f.debug_struct("ByteIter")
            .field("segments_left", &self.left.len())
            .finish_non_exhaustive()
    }
}

/// An iterator that drains the removed entries of a cache that threads share, created by
/// [`ByteCache::removed`].
///
/// If memory for the copy of an entry is refused, the next step tries that entry again.
pub struct ByteRemovedIter<'a> {
    // The segments that may still have removed entries.
    left: &'a [Segment],
}

impl Iterator for ByteRemovedIter<'_> {
    type Item = Result<Removed<Vec<u8>>, OutOfMemory>;

    fn next(&mut self) -> Option<Self::Item> {
        loop {
            let (segment, left) = self.left.split_first()?;
            if let Some(removed) = segment.cache.lock().removed().next() {
                return Some(removed);
            }
            self.left = left;
        }
    }
}

impl FusedIterator for ByteRemovedIter<'_> {}

impl fmt::Debug for ByteRemovedIter<'_> {
    fn fmt(&self, f: &mut fmt::Formatter<'_>) -> fmt::Result {
        f.debug_struct("ByteRemovedIter")
            .field("segments_left", &self.left.len())
            .finish_non_exhaustive()
    }
}

impl<'a> IntoIterator for &'a ByteCache {
    type Item = Result<Pair, OutOfMemory>;
    type IntoIter = ByteIter<'a>;

    fn into_iter(self) -> ByteIter<'a> {
        self.iter()
    }
}

impl Clone for ByteCache {
    /// Returns another handle on the same cache.
    fn clone(&self) -> ByteCache {
        ByteCache {
            shared: Arc::clone(&self.shared),
        }
    }
}

impl fmt::Debug for ByteCache {
    fn fmt(&self, f: &mut fmt::Formatter<'_>) -> fmt::Result {
        f.debug_struct("ByteCache")
            .field("len", &self.len())
            .field("weighted_size", &self.weighted_size())
            .field("segments", &self.segments())
            .finish_non_exhaustive()
    }
}

/// Hashes a key by products of its words, to pick a segment. Keys that strangers choose may all
/// belong to one segment, which is then busy, but no slower.
fn hash(seed: u64, key: &[u8]) -> u64 {
    let mut hash = seed ^ key.len() as u64;
    for word in key.chunks(8) {
        let mut bytes = [0; 8];
        bytes[..word.len()].copy_from_slice(word);
        let product = u128::from(hash ^ u64::from_le_bytes(bytes)) * 0x9E37_79B9_7F4A_7C15;
        hash = product as u64 ^ (product >> 64) as u64;
    }
    hash
}

/// Builds a [`ByteCache`] that threads share. A cache has only the limits that are set.
///
/// ```
/// use mini_moka_proved::sync::ByteCache;
/// use std::time::Duration;
///
/// let cache = ByteCache::builder()
///     .max_capacity(10_000)
///     .time_to_live(Duration::from_secs(30 * 60))
///     .segments(4)
///     .build()?;
/// assert_eq!(cache.segments(), 4);
/// # Ok::<(), mini_moka_proved::BuildError>(())
/// ```
#[derive(Clone, Default)]
#[must_use]
pub struct ByteBuilder {
    whole: byte_builder::ByteBuilder,
    segments: Option<usize>,
}

impl ByteBuilder {
    /// Sets the maximum number of entries, or with [`weigh_bytes`](Self::weigh_bytes) of bytes. The
    /// parts of the segments add up to it.
    pub fn max_capacity(mut self, max_capacity: u64) -> ByteBuilder {
        self.whole = self.whole.max_capacity(max_capacity);
        self
    }

    /// Makes the capacity count the bytes of keys and values instead of entries.
    ///
    /// A new entry that weighs more than its segment's part of the capacity is rejected. An update
    /// to such a weight may empty the segment, as [`crate::ByteBuilder::weigh_bytes`] says.
    pub fn weigh_bytes(mut self) -> ByteBuilder {
        self.whole = self.whole.weigh_bytes();
        self
    }

    /// Sets the time that an entry lives after its last write. It is expired from the end of that
    /// time on.
    pub fn time_to_live(mut self, duration: Duration) -> ByteBuilder {
        self.whole = self.whole.time_to_live(duration);
        self
    }

    /// Sets the time that an entry lives after its last read or write.
    pub fn time_to_idle(mut self, duration: Duration) -> ByteBuilder {
        self.whole = self.whole.time_to_idle(duration);
        self
    }

    /// Reserves memory for `entries` entries from the start, as
    /// [`crate::ByteBuilder::initial_capacity`] does. Each segment reserves its part. Keys are never
    /// spread quite evenly, so a segment may grow before the cache has `entries` entries, unless
    /// that is the capacity.
    pub fn initial_capacity(mut self, entries: usize) -> ByteBuilder {
        self.whole = self.whole.initial_capacity(entries);
        self
    }

    /// Sets the key of the hash function, as [`crate::ByteBuilder::seed`] does.
    pub fn seed(mut self, seed: [u8; 16]) -> ByteBuilder {
        self.whole = self.whole.seed(seed);
        self
    }

    /// Queues up to `entries` removed entries, for [`ByteCache::removed`] to drain. Each segment queues
    /// an equal part of them, rounded up.
    pub fn removed_room(mut self, entries: usize) -> ByteBuilder {
        self.whole = self.whole.removed_room(entries);
        self
    }

    /// Makes the cache read a coarse clock, as [`crate::ByteBuilder::coarse_clock`] does.
    pub fn coarse_clock(mut self) -> ByteBuilder {
        self.whole = self.whole.coarse_clock();
        self
    }

    /// Makes the cache read a clock that the program sets, as [`crate::ByteBuilder::manual_clock`] does.
    pub fn manual_clock(mut self, clock: &ManualClock) -> ByteBuilder {
        self.whole = self.whole.manual_clock(clock);
        self
    }

    /// Sets the share of each segment's capacity that is its window, in percent, as
    /// [`crate::ByteBuilder::window_share`] does.
    pub fn window_share(mut self, percent: u8) -> ByteBuilder {
        self.whole = self.whole.window_share(percent);
        self
    }

    /// Sets the share of each segment's capacity outside of its window that is for entries used
    /// there, in percent, as [`crate::ByteBuilder::protected_share`] does.
    pub fn protected_share(mut self, percent: u8) -> ByteBuilder {
        self.whole = self.whole.protected_share(percent);
        self
    }

    /// Makes the share of each segment's window follow the calls in the segment, as
    /// [`crate::ByteBuilder::adaptive`] does.
    ///
    /// ```
    /// use mini_moka_proved::sync::ByteCache;
    ///
    /// let cache = ByteCache::builder().max_capacity(1000).segments(4).adaptive().build()?;
    /// assert_eq!(cache.window_capacity(), 4 * 2);
    /// # Ok::<(), mini_moka_proved::BuildError>(())
    /// ```
    pub fn adaptive(mut self) -> ByteBuilder {
        self.whole = self.whole.adaptive();
        self
    }

    /// Sets the number of segments, clamped to the range from 1 to 65,536. With more segments than
    /// the capacity some keep nothing.
    ///
    /// By default a cache has 16 segments, or fewer, so that each has a capacity of at least 100
    /// entries, or 1 MiB if bytes are weighed. A smaller cache has one segment. A smaller segment
    /// has no window, or one that fits only small entries, so more new entries are rejected.
    pub fn segments(mut self, segments: usize) -> ByteBuilder {
        self.segments = Some(segments);
        self
    }

    /// Builds the cache, and starts its clock.
    ///
    /// # Errors
    ///
    /// Those of [`crate::ByteBuilder::build`].
    pub fn build(self) -> Result<ByteCache, BuildError> {
        let count = self.count();
        let mut segments = Vec::new();
        segments
            .try_reserve_exact(count)
            .map_err(OutOfMemory::from)?;
        for at in 0..count {
            let part = self.whole.part(count as u64, at as u64);
            // Calls pass the moment of the shared clock, so a segment needs no clock.
            segments.push(Segment {
                cache: Lock::new(part.build_with(Clock::standing())?),
            });
        }
        let shared = Shared {
            segments,
            seed: self.whole.segment_seed(),
            clock: self.whole.clock(),
        };
        Ok(ByteCache {
            shared: Arc::new(shared),
        })
    }

    /// Returns the number of segments.
    fn count(&self) -> usize {
        segments_of(
            self.segments,
            self.whole.capacity(),
            self.whole.least_segment(),
        )
    }
}

impl fmt::Debug for ByteBuilder {
    fn fmt(&self, f: &mut fmt::Formatter<'_>) -> fmt::Result {
        f.debug_struct("ByteBuilder")
            .field("whole", &self.whole)
            .field("segments", &self.segments)
            .finish()
    }
}
