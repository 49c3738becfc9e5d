//! The cache of bytes.

use crate::byte_builder::ByteBuilder;
use crate::clock::{nanoseconds, Clock};
use crate::error::{OutOfMemory, TimedInsertError};
use crate::handle::{Bytes, Drained, Handle, Inserted, Look, Removed, Settings, Statistics, Step};
use std::fmt;
use std::iter::FusedIterator;
use std::time::Duration;

/// The length in bytes of the longest value that [`ByteCache::get`] looks up only once.
const SHORT: usize = 256;

/// A single-thread cache whose keys and values are bytes of any length.
///
/// It takes anything that implements `AsRef<[u8]>`, such as `&str`, `String`, `Vec<u8>` and arrays.
/// It stores copies, and returns copies.
///
/// ```
/// use mini_moka_proved::ByteCache;
///
/// let mut cache = ByteCache::new(100)?;
/// cache.insert("alice", "admin")?;
/// assert_eq!(cache.get("alice"), Some(b"admin".to_vec()));
/// assert_eq!(cache.remove("alice")?, Some(b"admin".to_vec()));
/// assert!(cache.is_empty());
/// # Ok::<(), mini_moka_proved::OutOfMemory>(())
/// ```
///
/// # Size
///
/// A full cache admits an entry only if its estimated frequency exceeds the sum of its victims',
/// which are the least recently used entries. With a capacity of 100 or more, a hundredth of it is
/// a window. A new entry that fits begins there. When it leaves the window, it is admitted or
/// evicted. A new entry that doesn't fit in the window is admitted or rejected at once:
/// [`Inserted::Rejected`]. [`ByteBuilder::adaptive`] lets the window grow and shrink with the calls.
///
/// # Moments
///
/// A call reads the cache's clock, which starts when the cache is built. Without durations the
/// clock is always at zero, and isn't read. [`ByteBuilder::coarse_clock`] makes reading it cheap, and
/// [`ByteBuilder::manual_clock`] lets a test or a simulator set it.
///
/// Each call that needs a moment has a second form, whose name ends in `_at`. It takes the moment
/// as a duration since the clock's start. A moment may be before that of an earlier call. A moment
/// of 2^64 nanoseconds or more counts as 2^64 - 1.
///
/// ```
/// use mini_moka_proved::ByteCache;
/// use std::time::Duration;
///
/// let second = Duration::from_secs(1);
/// let mut cache = ByteCache::builder().time_to_live(10 * second).build()?;
/// cache.insert_at("alice", "admin", 5 * second)?;
/// assert!(cache.contains_key_at("alice", 14 * second));
/// assert!(!cache.contains_key_at("alice", 15 * second));
/// # Ok::<(), Box<dyn std::error::Error>>(())
/// ```
///
/// # Memory
///
/// No call aborts or panics if memory is refused. `get` and `peek` then return the result for a key
/// without an entry; [`try_get`](Self::try_get) distinguishes the two. Other calls that need memory
/// return [`OutOfMemory`].
///
/// # Cost
///
/// A call with a key takes constant time on average, plus the time to copy the key and the value.
/// All but [`peek`](Self::peek) first remove expired entries, a few hundred at most.
///
/// A look-up copies no key, and allocates only the value's copy. A key of up to 24 bytes is stored
/// in its entry, and a longer one has memory of its own.
///
/// An insert into a cache whose memory is full takes time linear in the number of entries. There is
/// none if the cache never has more entries than its [`ByteBuilder::initial_capacity`]. Dropping a cache
/// takes linear time too.
///
/// # Threads
///
/// A cache may move to another thread. It is not `Sync`: threads share a [`sync::ByteCache`].
///
/// [`sync::ByteCache`]: crate::sync::ByteCache
///
/// ```
/// fn may_go_to_another_thread<T: Send>() {}
/// may_go_to_another_thread::<mini_moka_proved::ByteCache>();
/// ```
///
/// ```compile_fail
/// fn may_be_shared_without_a_lock<T: Sync>() {}
/// may_be_shared_without_a_lock::<mini_moka_proved::ByteCache>();
/// ```
pub struct ByteCache {
    handle: Handle<Bytes>,
    clock: Clock,
    // The buffer of `get`. Its capacity is `SHORT` bytes.
    short: Vec<u8>,
}

impl ByteCache {
    /// Creates a cache of at most `max_capacity` entries, which don't expire.
    ///
    /// # Errors
    ///
    /// [`OutOfMemory`] if memory is refused.
    pub fn new(max_capacity: u64) -> Result<ByteCache, OutOfMemory> {
        let built = ByteCache::builder().max_capacity(max_capacity).build();
        // Without a duration there is no other error.
        built.map_err(|_| OutOfMemory)
    }

    /// Returns a builder of caches.
    pub fn builder() -> ByteBuilder {
        ByteBuilder::default()
    }

    pub(crate) fn open(settings: &Settings, clock: Clock) -> Result<ByteCache, OutOfMemory> {
        Ok(ByteCache {
            handle: Handle::<Bytes>::open(settings)?,
            clock,
            short: with_room(SHORT)?,
        })
    }

    /// Returns the current moment of the cache's clock. If the cache has no duration, it is always
    /// zero, or that of its [`ManualClock`](crate::ManualClock).
    pub fn now(&self) -> Duration {
        self.clock.elapsed()
    }

    /// Looks up the key, and returns a copy of its value.
    ///
    /// The key is counted, found or not, and its entry becomes the most recently used one. A value
    /// of more than 256 bytes is looked up twice, but counted once.
    pub fn get(&mut self, key: impl AsRef<[u8]>) -> Option<Vec<u8>> {
        self.get_at(key, self.now())
    }

    /// Looks up the key as [`get`](Self::get) does, at the moment `now`.
    pub fn get_at(&mut self, key: impl AsRef<[u8]>, now: Duration) -> Option<Vec<u8>> {
        self.try_get_at(key, now).ok().flatten()
    }

    /// Looks up the key as [`get`](Self::get) does, and distinguishes a key without an entry from
    /// refused memory.
    ///
    /// ```
    /// use mini_moka_proved::{ByteCache, OutOfMemory};
    ///
    /// let mut cache = ByteCache::new(100)?;
    /// match cache.try_get("alice") {
    ///     Ok(Some(role)) => println!("{role:?}"),
    ///     Ok(None) => println!("nobody"),
    ///     Err(OutOfMemory) => println!("ask again later"),
    /// }
    /// # Ok::<(), OutOfMemory>(())
    /// ```
    ///
    /// # Errors
    ///
    /// [`OutOfMemory`] if memory is refused for the value's copy.
    pub fn try_get(&mut self, key: impl AsRef<[u8]>) -> Result<Option<Vec<u8>>, OutOfMemory> {
        self.try_get_at(key, self.now())
    }

    /// Looks up the key as [`try_get`](Self::try_get) does, at the moment `now`.
    ///
    /// # Errors
    ///
    /// Those of [`try_get`](Self::try_get).
    pub fn try_get_at(
        &mut self,
        key: impl AsRef<[u8]>,
        now: Duration,
    ) -> Result<Option<Vec<u8>>, OutOfMemory> {
        self.found(key.as_ref(), nanoseconds(now))
    }

    /// Looks up the key as [`get`](Self::get) does, and writes its value to `buffer`. Returns
    /// `true` if there is one.
    ///
    /// The value replaces the contents of the buffer; if none is found, the buffer is empty. The
    /// buffer is reallocated only if its capacity is less than the value's length. The value is
    /// then looked up twice, but counted once.
    ///
    /// ```
    /// use mini_moka_proved::ByteCache;
    ///
    /// let mut cache = ByteCache::new(100)?;
    /// cache.insert("alice", "admin")?;
    /// let mut role = Vec::with_capacity(64);
    /// assert!(cache.get_into("alice", &mut role)?);
    /// assert_eq!(role, b"admin");
    /// # Ok::<(), mini_moka_proved::OutOfMemory>(())
    /// ```
    ///
    /// # Errors
    ///
    /// [`OutOfMemory`] if memory is refused for the buffer.
    pub fn get_into(
        &mut self,
        key: impl AsRef<[u8]>,
        buffer: &mut Vec<u8>,
    ) -> Result<bool, OutOfMemory> {
        self.get_into_at(key, buffer, self.now())
    }

    /// Looks up the key as [`get_into`](Self::get_into) does, at the moment `now`.
    ///
    /// # Errors
    ///
    /// Those of [`get_into`](Self::get_into).
    pub fn get_into_at(
        &mut self,
        key: impl AsRef<[u8]>,
        buffer: &mut Vec<u8>,
        now: Duration,
    ) -> Result<bool, OutOfMemory> {
        self.found_into(key.as_ref(), buffer, nanoseconds(now))
    }

    /// Looks up the key, and returns a copy of its value. It doesn't count as an access: it counts,
    /// moves and removes nothing. A value that isn't empty is looked up twice.
    pub fn peek(&self, key: impl AsRef<[u8]>) -> Option<Vec<u8>> {
        self.peek_at(key, self.now())
    }

    /// Looks up the key as [`peek`](Self::peek) does, at the moment `now`.
    pub fn peek_at(&self, key: impl AsRef<[u8]>, now: Duration) -> Option<Vec<u8>> {
        let (key, moment) = (key.as_ref(), nanoseconds(now));
        filled(Vec::new(), |value| self.handle.peek(key, moment, value))
            .ok()
            .flatten()
    }

    /// Returns `true` if the key has an unexpired entry. It doesn't count as an access.
    pub fn contains_key(&mut self, key: impl AsRef<[u8]>) -> bool {
        self.contains_key_at(key, self.now())
    }

    /// Looks up the key as [`contains_key`](Self::contains_key) does, at the moment `now`.
    pub fn contains_key_at(&mut self, key: impl AsRef<[u8]>, now: Duration) -> bool {
        self.handle.contains(key.as_ref(), nanoseconds(now))
    }

    /// Looks up the key as [`get`](Self::get) does, and inserts the value that `make` returns if
    /// the key has none. Returns the key's value, or that of `make`, even if its entry was
    /// rejected.
    ///
    /// The new entry's time to live begins when `make` has returned.
    ///
    /// ```
    /// use mini_moka_proved::ByteCache;
    ///
    /// let mut cache = ByteCache::new(100)?;
    /// assert_eq!(cache.get_or_insert_with("page", || b"made".to_vec())?, b"made");
    /// assert_eq!(cache.get_or_insert_with("page", || unreachable!())?, b"made");
    /// # Ok::<(), mini_moka_proved::OutOfMemory>(())
    /// ```
    ///
    /// # Errors
    ///
    /// [`OutOfMemory`] if memory for the found value's copy is refused; then `make` isn't called.
    /// Also if the insert is refused memory; then the value is dropped.
    pub fn get_or_insert_with(
        &mut self,
        key: impl AsRef<[u8]>,
        make: impl FnOnce() -> Vec<u8>,
    ) -> Result<Vec<u8>, OutOfMemory> {
        let key = key.as_ref();
        if let Some(value) = self.found(key, nanoseconds(self.now()))? {
            return Ok(value);
        }
        let value = make();
        self.insert(key, &value)?;
        Ok(value)
    }

    /// Looks up the key as [`get_or_insert_with`](Self::get_or_insert_with) does, at the moment
    /// `now`, which is also that of the insert.
    ///
    /// # Errors
    ///
    /// Those of [`get_or_insert_with`](Self::get_or_insert_with).
    pub fn get_or_insert_with_at(
        &mut self,
        key: impl AsRef<[u8]>,
        make: impl FnOnce() -> Vec<u8>,
        now: Duration,
    ) -> Result<Vec<u8>, OutOfMemory> {
        let key = key.as_ref();
        if let Some(value) = self.found(key, nanoseconds(now))? {
            return Ok(value);
        }
        let value = make();
        self.insert_at(key, &value, now)?;
        Ok(value)
    }

    /// Inserts a copy of the value under a copy of the key. If the cache is full, a new entry that
    /// doesn't fit in the window may be rejected: [`Inserted::Rejected`].
    ///
    /// ```
    /// use mini_moka_proved::{ByteCache, Inserted};
    ///
    /// let mut cache = ByteCache::new(1)?;
    /// assert_eq!(cache.insert("first", "kept")?, Inserted::Stored);
    /// assert_eq!(cache.insert("second", "unknown")?, Inserted::Rejected);
    /// # Ok::<(), mini_moka_proved::OutOfMemory>(())
    /// ```
    ///
    /// # Errors
    ///
    /// [`OutOfMemory`] if memory for the copies or for an entry is refused. Then no entry is
    /// written.
    pub fn insert(
        &mut self,
        key: impl AsRef<[u8]>,
        value: impl AsRef<[u8]>,
    ) -> Result<Inserted, OutOfMemory> {
        self.insert_at(key, value, self.now())
    }

    /// Inserts copies of the key and the value as [`insert`](Self::insert) does, at the moment
    /// `now`.
    ///
    /// # Errors
    ///
    /// Those of [`insert`](Self::insert).
    pub fn insert_at(
        &mut self,
        key: impl AsRef<[u8]>,
        value: impl AsRef<[u8]>,
        now: Duration,
    ) -> Result<Inserted, OutOfMemory> {
        self.handle
            .insert(key.as_ref(), value.as_ref(), nanoseconds(now))
    }

    /// Inserts copies of the key and the value as [`insert`](Self::insert) does, with a time to live of its own. The
    /// entry expires after that, or after the cache's time to live if that is shorter. The next
    /// insert at the key gives it a new one.
    ///
    /// ```
    /// use mini_moka_proved::{ByteCache, ManualClock};
    /// use std::time::Duration;
    ///
    /// let clock = ManualClock::new();
    /// let hour = Duration::from_secs(3600);
    /// let mut cache = ByteCache::builder().time_to_live(hour).manual_clock(&clock).build()?;
    /// cache.insert_with_time_to_live("token", "alice", Duration::from_secs(60))?;
    /// clock.advance(Duration::from_secs(60));
    /// assert_eq!(cache.get("token"), None);
    /// # Ok::<(), Box<dyn std::error::Error>>(())
    /// ```
    ///
    /// # Errors
    ///
    /// [`TimedInsertError::NoTimeToLive`] if the cache has none, and
    /// [`TimedInsertError::OutOfMemory`] if memory is refused. Then no entry is written.
    pub fn insert_with_time_to_live(
        &mut self,
        key: impl AsRef<[u8]>,
        value: impl AsRef<[u8]>,
        time_to_live: Duration,
    ) -> Result<Inserted, TimedInsertError> {
        self.insert_with_time_to_live_at(key, value, time_to_live, self.now())
    }

    /// Inserts copies of the key and the value as [`insert_with_time_to_live`](Self::insert_with_time_to_live) does, at the
    /// moment `now`.
    ///
    /// # Errors
    ///
    /// Those of [`insert_with_time_to_live`](Self::insert_with_time_to_live).
    pub fn insert_with_time_to_live_at(
        &mut self,
        key: impl AsRef<[u8]>,
        value: impl AsRef<[u8]>,
        time_to_live: Duration,
        now: Duration,
    ) -> Result<Inserted, TimedInsertError> {
        let own = nanoseconds(time_to_live);
        self.handle
            .insert_for(key.as_ref(), value.as_ref(), own, nanoseconds(now))
    }

    /// Removes the entry of the key, and returns its value, unless it is expired. A value that
    /// isn't empty is looked up twice.
    ///
    /// # Errors
    ///
    /// [`OutOfMemory`] if memory for the value is refused. Then the entry stays.
    pub fn remove(&mut self, key: impl AsRef<[u8]>) -> Result<Option<Vec<u8>>, OutOfMemory> {
        self.remove_at(key, self.now())
    }

    /// Removes the entry of the key as [`remove`](Self::remove) does, at the moment `now`.
    ///
    /// # Errors
    ///
    /// Those of [`remove`](Self::remove).
    pub fn remove_at(
        &mut self,
        key: impl AsRef<[u8]>,
        now: Duration,
    ) -> Result<Option<Vec<u8>>, OutOfMemory> {
        let (key, moment) = (key.as_ref(), nanoseconds(now));
        // The first call has no buffer and leaves the entry, so a value is not lost if memory for
        // it is refused.
        filled(Vec::new(), |value| self.handle.remove(key, moment, value))
    }

    /// Removes the entry of the key, if there is one, without returning its value. It is never
    /// refused memory.
    pub fn invalidate(&mut self, key: impl AsRef<[u8]>) {
        self.invalidate_at(key, self.now());
    }

    /// Removes the entry of the key as [`invalidate`](Self::invalidate) does, at the moment `now`.
    pub fn invalidate_at(&mut self, key: impl AsRef<[u8]>, now: Duration) {
        self.handle.invalidate(key.as_ref(), nanoseconds(now));
    }

    /// Removes all expired entries, in time linear in the number of entries. Other calls remove a
    /// batch of them at most, and stop at the first that isn't expired.
    pub fn remove_expired(&mut self) {
        self.remove_expired_at(self.now());
    }

    /// Removes all entries that are expired at the moment `now`.
    pub fn remove_expired_at(&mut self, now: Duration) {
        self.handle.remove_expired(nanoseconds(now));
    }

    /// Removes all entries, in time linear in their number.
    pub fn clear(&mut self) {
        self.handle.clear();
    }

    /// Returns an iterator over copies of the unexpired entries, as pairs of key and value. Those of
    /// the window come last, and the others before them, each least recently used first. It doesn't
    /// count as an access, and removes none.
    ///
    /// An entry that leaves the window is put after all others outside of it, though some of them
    /// may have been used later.
    ///
    /// If memory for a pair is refused, the iterator yields an error, and tries that pair again
    /// next.
    ///
    /// ```
    /// use mini_moka_proved::ByteCache;
    ///
    /// let mut cache = ByteCache::builder().build()?;
    /// cache.insert("alice", "admin")?;
    /// cache.insert("bob", "guest")?;
    /// let _ = cache.get("alice");
    /// for pair in &mut cache {
    ///     let (name, role) = pair?;
    ///     println!("{name:?} {role:?}");
    /// }
    /// let first = cache.iter().next().transpose()?;
    /// assert_eq!(first, Some((b"bob".to_vec(), b"guest".to_vec())));
    /// # Ok::<(), Box<dyn std::error::Error>>(())
    /// ```
    pub fn iter(&mut self) -> ByteIter<'_> {
        self.iter_at(self.now())
    }

    /// Returns an iterator as [`iter`](Self::iter) does, at the moment `now`.
    pub fn iter_at(&mut self, now: Duration) -> ByteIter<'_> {
        self.handle.begin_walk();
        ByteIter {
            cache: self,
            moment: nanoseconds(now),
        }
    }

    /// Returns an iterator that drains the removed entries, in the order in which they left.
    /// Entries that it doesn't reach stay in the queue. Without [`ByteBuilder::removed_room`] it yields
    /// nothing.
    ///
    /// An entry is queued within the call in which it leaves, unless [`remove`](Self::remove)
    /// returns it. A replaced value is queued with its key, and a rejected entry as it was passed.
    ///
    /// ```
    /// use mini_moka_proved::{ByteCache, Cause};
    ///
    /// let mut cache = ByteCache::builder().max_capacity(100).removed_room(10).build()?;
    /// cache.insert("alice", "guest")?;
    /// cache.insert("alice", "admin")?;
    /// for removed in cache.removed() {
    ///     let removed = removed?;
    ///     assert_eq!((removed.key, removed.value), (b"alice".to_vec(), b"guest".to_vec()));
    ///     assert_eq!(removed.cause, Cause::Replaced);
    /// }
    /// assert!(cache.removed().next().is_none());
    /// # Ok::<(), Box<dyn std::error::Error>>(())
    /// ```
    pub fn removed(&mut self) -> ByteRemovedIter<'_> {
        ByteRemovedIter { cache: self }
    }

    /// Returns the number of entries, including expired ones that no call has removed yet. It takes
    /// constant time.
    pub fn len(&self) -> usize {
        // A cache has at most 2,000,000,000 entries.
        self.handle.len() as usize
    }

    /// Returns `true` if the cache has no entry, not even an expired one.
    pub fn is_empty(&self) -> bool {
        self.len() == 0
    }

    /// Returns the weight of the entries, at most `u64::MAX`: their number, or, if the cache weighs
    /// bytes, the bytes of their keys and values. It takes constant time.
    pub fn weighted_size(&self) -> u64 {
        self.handle.weighted_size()
    }

    /// Returns the weight that the window may have now, in entries or bytes as the capacity: its
    /// share of the capacity, or what that has become if the cache is
    /// [adaptive](ByteBuilder::adaptive). It is 0 without a capacity. It takes constant time.
    ///
    /// ```
    /// use mini_moka_proved::ByteCache;
    ///
    /// let mut cache = ByteCache::builder().max_capacity(1000).adaptive().build()?;
    /// assert_eq!(cache.window_capacity(), 10);
    /// // Each key returns when a window of 10 entries has given it up.
    /// for number in 0..10_000u32 {
    ///     cache.insert(number.to_le_bytes(), "")?;
    ///     if let Some(earlier) = number.checked_sub(20) {
    ///         cache.get_or_insert_with(earlier.to_le_bytes(), Vec::new)?;
    ///     }
    /// }
    /// assert!(cache.window_capacity() > 20);
    /// # Ok::<(), Box<dyn std::error::Error>>(())
    /// ```
    pub fn window_capacity(&self) -> u64 {
        self.handle.window_capacity()
    }

    /// Returns the counts of the calls, and of the entries that left, since the cache was built.
    pub fn statistics(&self) -> Statistics {
        self.handle.statistics()
    }

    /// Makes a get, and returns the value in a new vector.
    fn found(&mut self, key: &[u8], moment: u64) -> Result<Option<Vec<u8>>, OutOfMemory> {
        match self.handle.get(key, moment, &mut self.short) {
            Look::Copied => Ok(Some(copy_of(&self.short)?)),
            Look::Absent => Ok(None),
            // The get was counted already, so a peek fetches the value.
            Look::TooLong(length) => filled(with_room(length)?, |value| {
                self.handle.peek(key, moment, value)
            }),
        }
    }

    /// Makes a get, and writes the value to the caller's buffer.
    fn found_into(
        &mut self,
        key: &[u8],
        buffer: &mut Vec<u8>,
        moment: u64,
    ) -> Result<bool, OutOfMemory> {
        match self.handle.get(key, moment, buffer) {
            Look::Copied => Ok(true),
            Look::Absent => Ok(false),
            // As in `found`.
            Look::TooLong(length) => {
                buffer.try_reserve_exact(length)?;
                fill(buffer, |buffer| self.handle.peek(key, moment, buffer))
            }
        }
    }
}

/// An iterator over copies of a cache's unexpired entries, created by [`ByteCache::iter`].
///
/// A step takes constant time on average for each entry that it passes, plus the time to copy.
#[derive(Debug)]
pub struct ByteIter<'a> {
    // Borrowed as a whole, so that no call ends the walk.
    cache: &'a mut ByteCache,
    moment: u64,
}

impl Iterator for ByteIter<'_> {
    type Item = Result<(Vec<u8>, Vec<u8>), OutOfMemory>;

    fn next(&mut self) -> Option<Self::Item> {
        let (mut key, mut value) = (Vec::new(), Vec::new());
        match self.step(&mut key, &mut value) {
            Ok(true) => Some(Ok((key, value))),
            Ok(false) => None,
            Err(error) => Some(Err(error)),
        }
    }

    fn size_hint(&self) -> (usize, Option<usize>) {
        // A refused pair is tried again, so there is no upper bound.
        (0, None)
    }
}

impl FusedIterator for ByteIter<'_> {}

impl ByteIter<'_> {
    /// Copies the next pair to the vectors, which grow as needed. Returns `false` if there is none.
    fn step(&mut self, key: &mut Vec<u8>, value: &mut Vec<u8>) -> Result<bool, OutOfMemory> {
        loop {
            match self.cache.handle.step(self.moment, key, value)? {
                Step::Copied => return Ok(true),
                Step::Ended => return Ok(false),
                Step::TooLong {
                    key: key_length,
                    value: value_length,
                } => {
                    key.try_reserve_exact(key_length)?;
                    value.try_reserve_exact(value_length)?;
                }
            }
        }
    }
}

/// An iterator that drains the removed entries of a cache, created by [`ByteCache::removed`].
///
/// If memory for the copy of an entry is refused, the next step tries that entry again.
#[derive(Debug)]
pub struct ByteRemovedIter<'a> {
    cache: &'a mut ByteCache,
}

impl Iterator for ByteRemovedIter<'_> {
    type Item = Result<Removed<Vec<u8>>, OutOfMemory>;

    fn next(&mut self) -> Option<Self::Item> {
        let (mut key, mut value) = (Vec::new(), Vec::new());
        loop {
            let (key_length, value_length) = match self.cache.handle.drain(&mut key, &mut value) {
                Drained::Copied(cause) => return Some(Ok(Removed { key, value, cause })),
                Drained::Empty => return None,
                Drained::TooLong { key, value } => (key, value),
            };
            let reserved = key.try_reserve_exact(key_length);
            if let Err(error) = reserved.and_then(|()| value.try_reserve_exact(value_length)) {
                return Some(Err(error.into()));
            }
        }
    }
}

impl FusedIterator for ByteRemovedIter<'_> {}

impl<'a> IntoIterator for &'a mut ByteCache {
    type Item = Result<(Vec<u8>, Vec<u8>), OutOfMemory>;
    type IntoIter = ByteIter<'a>;

    fn into_iter(self) -> ByteIter<'a> {
        self.iter()
    }
}

impl fmt::Debug for ByteCache {
    fn fmt(&self, f: &mut fmt::Formatter<'_>) -> fmt::Result {
        f.debug_struct("ByteCache")
            .field("len", &self.len())
            .field("weighted_size", &self.weighted_size())
            .finish_non_exhaustive()
    }
}

/// Creates an empty vector with a capacity of at least `bytes` bytes.
fn with_room(bytes: usize) -> Result<Vec<u8>, OutOfMemory> {
    let mut room = Vec::new();
    room.try_reserve_exact(bytes)?;
    Ok(room)
}

fn copy_of(bytes: &[u8]) -> Result<Vec<u8>, OutOfMemory> {
    let mut copy = with_room(bytes.len())?;
    copy.extend_from_slice(bytes);
    Ok(copy)
}

/// Makes a look-up, and repeats it if the vector is too short for the value.
fn filled(
    mut value: Vec<u8>,
    look: impl Fn(&mut Vec<u8>) -> Look,
) -> Result<Option<Vec<u8>>, OutOfMemory> {
    Ok(fill(&mut value, look)?.then_some(value))
}

/// Makes a look-up as `filled` does, into a buffer. Returns `true` if it finds a value.
fn fill(buffer: &mut Vec<u8>, look: impl Fn(&mut Vec<u8>) -> Look) -> Result<bool, OutOfMemory> {
    loop {
        match look(buffer) {
            Look::Copied => return Ok(true),
            Look::Absent => return Ok(false),
            Look::TooLong(length) => buffer.try_reserve_exact(length)?,
        }
    }
}
