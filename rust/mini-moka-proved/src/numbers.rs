//! The cache of numbers.

use crate::clock::{nanoseconds, Clock};
use crate::error::{OutOfMemory, TimedInsertError};
use crate::handle::{Handle, Inserted, NumberSettings, Numbers, Removed, Statistics};
use crate::number_builder::NumberBuilder;
use std::fmt;
use std::iter::FusedIterator;
use std::time::Duration;

/// A single-thread cache whose keys and values are 64-bit numbers.
///
/// It works as the [`ByteCache`](crate::ByteCache) of bytes: size, moments, threads and cost are as there.
/// Numbers take no memory of their own, and nothing is copied. No look-up allocates, so only
/// inserts can be refused memory.
///
/// The hash function has a fixed key. If strangers choose the cache's keys, they can choose ones
/// with the same hash, which makes the cache slow. Use a `ByteCache` with a random seed then.
///
/// ```
/// use mini_moka_proved::NumberCache;
///
/// let mut squares = NumberCache::new(100)?;
/// squares.insert(7, 49)?;
/// assert_eq!(squares.get(7), Some(49));
/// assert_eq!(squares.get_or_insert_with(8, || 64)?, 64);
/// assert_eq!(squares.remove(7)?, Some(49));
/// assert_eq!(squares.len(), 1);
/// # Ok::<(), mini_moka_proved::OutOfMemory>(())
/// ```
pub struct NumberCache {
    handle: Handle<Numbers>,
    clock: Clock,
}

impl NumberCache {
    /// Creates a cache of at most `max_capacity` entries, which don't expire.
    ///
    /// # Errors
    ///
    /// [`OutOfMemory`] if memory is refused.
    pub fn new(max_capacity: u64) -> Result<NumberCache, OutOfMemory> {
        let built = NumberCache::builder().max_capacity(max_capacity).build();
        // Without a duration there is no other error.
        built.map_err(|_| OutOfMemory)
    }

    /// Returns a builder of caches.
    pub fn builder() -> NumberBuilder {
        NumberBuilder::default()
    }

    pub(crate) fn open(
        settings: &NumberSettings,
        clock: Clock,
    ) -> Result<NumberCache, OutOfMemory> {
        let handle = Handle::<Numbers>::open(settings)?;
        Ok(NumberCache { handle, clock })
    }

    /// Returns the current moment of the cache's clock. If the cache has no duration, it is always
    /// zero, or that of its [`ManualClock`](crate::ManualClock).
    pub fn now(&self) -> Duration {
        self.clock.elapsed()
    }

    /// Looks up the key, and returns its value. The key is counted, found or not, and its entry
    /// becomes the most recently used one.
    pub fn get(&mut self, key: u64) -> Option<u64> {
        self.get_at(key, self.now())
    }

    /// Looks up the key as [`get`](Self::get) does, at the moment `now`.
    pub fn get_at(&mut self, key: u64, now: Duration) -> Option<u64> {
        self.handle.get(key, nanoseconds(now))
    }

    /// Looks up the key, and returns its value. It doesn't count as an access: it counts, moves and
    /// removes nothing.
    pub fn peek(&self, key: u64) -> Option<u64> {
        self.peek_at(key, self.now())
    }

    /// Looks up the key as [`peek`](Self::peek) does, at the moment `now`.
    pub fn peek_at(&self, key: u64, now: Duration) -> Option<u64> {
        self.handle.peek(key, nanoseconds(now))
    }

    /// Returns `true` if the key has an unexpired entry. It doesn't count as an access.
    pub fn contains_key(&mut self, key: u64) -> bool {
        self.contains_key_at(key, self.now())
    }

    /// Looks up the key as [`contains_key`](Self::contains_key) does, at the moment `now`.
    pub fn contains_key_at(&mut self, key: u64, now: Duration) -> bool {
        self.handle.contains(key, nanoseconds(now))
    }

    /// Looks up the key as [`get`](Self::get) does, and inserts `otherwise` if the key has no
    /// value. Returns the key's value, or `otherwise`, even if its entry was rejected. It never
    /// updates: an expired entry of the key leaves as [`Cause::Expired`](crate::Cause::Expired).
    ///
    /// # Errors
    ///
    /// [`OutOfMemory`] if the insert is refused memory.
    pub fn get_or_insert(&mut self, key: u64, otherwise: u64) -> Result<u64, OutOfMemory> {
        self.get_or_insert_at(key, otherwise, self.now())
    }

    /// Looks up the key as [`get_or_insert`](Self::get_or_insert) does, at the moment `now`.
    ///
    /// # Errors
    ///
    /// Those of [`get_or_insert`](Self::get_or_insert).
    pub fn get_or_insert_at(
        &mut self,
        key: u64,
        otherwise: u64,
        now: Duration,
    ) -> Result<u64, OutOfMemory> {
        self.handle.get_or_insert(key, otherwise, nanoseconds(now))
    }

    /// Looks up the key as [`get`](Self::get) does, and inserts the value that `make` returns if
    /// the key has none. Returns the key's value, or that of `make`, even if its entry was
    /// rejected.
    ///
    /// The new entry's time to live begins when `make` has returned.
    ///
    /// # Errors
    ///
    /// [`OutOfMemory`] if the insert is refused memory. Then no entry is written.
    pub fn get_or_insert_with(
        &mut self,
        key: u64,
        make: impl FnOnce() -> u64,
    ) -> Result<u64, OutOfMemory> {
        if let Some(value) = self.get(key) {
            return Ok(value);
        }
        let value = make();
        self.insert(key, value)?;
        Ok(value)
    }

    /// Looks up the key as [`get_or_insert_with`](Self::get_or_insert_with) does, at the moment
    /// `now`, which is also that of the insert.
    ///
    /// # Errors
    ///
    /// Those of [`get_or_insert_with`](Self::get_or_insert_with).
    pub fn get_or_insert_with_at(
        &mut self,
        key: u64,
        make: impl FnOnce() -> u64,
        now: Duration,
    ) -> Result<u64, OutOfMemory> {
        if let Some(value) = self.get_at(key, now) {
            return Ok(value);
        }
        let value = make();
        self.insert_at(key, value, now)?;
        Ok(value)
    }

    /// Inserts the value under the key. If the cache is full and its capacity is below 100, so that
    /// it has no window, a new entry may be rejected: [`Inserted::Rejected`].
    ///
    /// # Errors
    ///
    /// [`OutOfMemory`] if memory is refused. Then no entry is written.
    pub fn insert(&mut self, key: u64, value: u64) -> Result<Inserted, OutOfMemory> {
        self.insert_at(key, value, self.now())
    }

    /// Inserts the value under the key as [`insert`](Self::insert) does, at the moment `now`.
    ///
    /// # Errors
    ///
    /// Those of [`insert`](Self::insert).
    pub fn insert_at(
        &mut self,
        key: u64,
        value: u64,
        now: Duration,
    ) -> Result<Inserted, OutOfMemory> {
        self.handle.insert(key, value, nanoseconds(now))
    }

    /// Inserts the value under the key as [`insert`](Self::insert) does, with a time to live of its own. The
    /// entry expires after that, or after the cache's time to live if that is shorter. The next
    /// insert at the key gives it a new one.
    ///
    /// # Errors
    ///
    /// [`TimedInsertError::NoTimeToLive`] if the cache has none, and
    /// [`TimedInsertError::OutOfMemory`] if memory is refused. Then no entry is written.
    pub fn insert_with_time_to_live(
        &mut self,
        key: u64,
        value: u64,
        time_to_live: Duration,
    ) -> Result<Inserted, TimedInsertError> {
        self.insert_with_time_to_live_at(key, value, time_to_live, self.now())
    }

    /// Inserts the value under the key as [`insert_with_time_to_live`](Self::insert_with_time_to_live) does, at the
    /// moment `now`.
    ///
    /// # Errors
    ///
    /// Those of [`insert_with_time_to_live`](Self::insert_with_time_to_live).
    pub fn insert_with_time_to_live_at(
        &mut self,
        key: u64,
        value: u64,
        time_to_live: Duration,
        now: Duration,
    ) -> Result<Inserted, TimedInsertError> {
        let own = nanoseconds(time_to_live);
        self.handle.insert_for(key, value, own, nanoseconds(now))
    }

    /// Removes the entry of the key, and returns its value, unless it is expired.
    ///
    /// # Errors
    ///
    /// None: a removal allocates nothing. It returns a `Result` as
    /// [`ByteCache::remove`](crate::ByteCache::remove) does.
    pub fn remove(&mut self, key: u64) -> Result<Option<u64>, OutOfMemory> {
        self.remove_at(key, self.now())
    }

    /// Removes the entry of the key as [`remove`](Self::remove) does, at the moment `now`.
    ///
    /// # Errors
    ///
    /// None: a removal allocates nothing.
    pub fn remove_at(&mut self, key: u64, now: Duration) -> Result<Option<u64>, OutOfMemory> {
        Ok(self.handle.remove(key, nanoseconds(now)))
    }

    /// Removes the entry of the key, if there is one, without returning its value.
    pub fn invalidate(&mut self, key: u64) {
        self.invalidate_at(key, self.now());
    }

    /// Removes the entry of the key as [`invalidate`](Self::invalidate) does, at the moment `now`.
    pub fn invalidate_at(&mut self, key: u64, now: Duration) {
        self.handle.invalidate(key, nanoseconds(now));
    }

    /// Removes all expired entries, in time linear in the number of entries. Other calls remove a
    /// batch of them at most, and stop at the first that isn't expired.
    pub fn remove_expired(&mut self) {
        self.remove_expired_at(self.now());
    }

    /// Removes all entries that are expired at the moment `now`.
    pub fn remove_expired_at(&mut self, now: Duration) {
        self.handle.remove_expired(nanoseconds(now));
    }

    /// Removes all entries, in time linear in their number.
    pub fn clear(&mut self) {
        self.handle.clear();
    }

    /// Returns an iterator over the unexpired entries, as pairs of key and value, in the order of
    /// [`ByteCache::iter`](crate::ByteCache::iter). It doesn't count as an access, and removes none.
    ///
    /// ```
    /// use mini_moka_proved::NumberCache;
    ///
    /// let mut squares = NumberCache::new(100)?;
    /// for key in 1..4 {
    ///     squares.insert(key, key * key)?;
    /// }
    /// let sum: u64 = squares.iter().map(|(_, square)| square).sum();
    /// assert_eq!(sum, 14);
    /// # Ok::<(), mini_moka_proved::OutOfMemory>(())
    /// ```
    pub fn iter(&mut self) -> NumberIter<'_> {
        self.iter_at(self.now())
    }

    /// Returns an iterator as [`iter`](Self::iter) does, at the moment `now`.
    pub fn iter_at(&mut self, now: Duration) -> NumberIter<'_> {
        self.handle.begin_walk();
        NumberIter {
            cache: self,
            moment: nanoseconds(now),
        }
    }

    /// Returns an iterator that drains the removed entries, as [`ByteCache::removed`] does.
    ///
    /// [`ByteCache::removed`]: crate::ByteCache::removed
    ///
    /// ```
    /// use mini_moka_proved::{Cause, NumberCache};
    ///
    /// let mut squares = NumberCache::builder().removed_room(10).build()?;
    /// squares.insert(7, 49)?;
    /// squares.invalidate(7);
    /// let removed = squares.removed().next().unwrap();
    /// assert_eq!((removed.key, removed.value, removed.cause), (7, 49, Cause::Explicit));
    /// # Ok::<(), Box<dyn std::error::Error>>(())
    /// ```
    pub fn removed(&mut self) -> NumberRemovedIter<'_> {
        NumberRemovedIter { cache: self }
    }

    /// Returns the number of entries, including expired ones that no call has removed yet. It takes
    /// constant time.
    pub fn len(&self) -> usize {
        // A cache has at most 2,000,000,000 entries.
        self.handle.len() as usize
    }

    /// Returns `true` if the cache has no entry, not even an expired one.
    pub fn is_empty(&self) -> bool {
        self.len() == 0
    }

    /// Returns the weight of the entries, at most `u64::MAX`: their number, or the sum of their
    /// weights with [`NumberBuilder::weigh_values`]. It takes constant time.
    pub fn weighted_size(&self) -> u64 {
        self.handle.weighted_size()
    }

    /// Returns the number of entries that the window may have now, as
    /// [`ByteCache::window_capacity`](crate::ByteCache::window_capacity) does. It takes constant time.
    pub fn window_capacity(&self) -> u64 {
        self.handle.window_capacity()
    }

    /// Returns the counts of the calls, and of the entries that left, since the cache was built.
    ///
    /// ```
    /// use mini_moka_proved::NumberCache;
    ///
    /// let mut squares = NumberCache::new(100)?;
    /// squares.get_or_insert(7, 49)?;
    /// squares.get_or_insert(7, 49)?;
    /// let counts = squares.statistics();
    /// assert_eq!((counts.hits, counts.misses, counts.inserts), (1, 1, 1));
    /// # Ok::<(), mini_moka_proved::OutOfMemory>(())
    /// ```
    pub fn statistics(&self) -> Statistics {
        self.handle.statistics()
    }
}

/// An iterator over a cache's unexpired entries, created by [`NumberCache::iter`].
///
/// A step takes constant time on average for each entry that it passes.
#[derive(Debug)]
pub struct NumberIter<'a> {
    // Borrowed as a whole, so that no call ends the walk.
    cache: &'a mut NumberCache,
    moment: u64,
}

impl Iterator for NumberIter<'_> {
    type Item = (u64, u64);

    fn next(&mut self) -> Option<(u64, u64)> {
        self.cache.handle.step(self.moment)
    }

    fn size_hint(&self) -> (usize, Option<usize>) {
        (0, Some(self.cache.len()))
    }
}

impl FusedIterator for NumberIter<'_> {}

/// An iterator that drains the removed entries of a cache, created by [`NumberCache::removed`].
#[derive(Debug)]
pub struct NumberRemovedIter<'a> {
    cache: &'a mut NumberCache,
}

impl Iterator for NumberRemovedIter<'_> {
    type Item = Removed<u64>;

    fn next(&mut self) -> Option<Removed<u64>> {
        self.cache.handle.drain()
    }
}

impl FusedIterator for NumberRemovedIter<'_> {}

impl<'a> IntoIterator for &'a mut NumberCache {
    type Item = (u64, u64);
    type IntoIter = NumberIter<'a>;

    fn into_iter(self) -> NumberIter<'a> {
        self.iter()
    }
}

impl fmt::Debug for NumberCache {
    fn fmt(&self, f: &mut fmt::Formatter<'_>) -> fmt::Result {
        f.debug_struct("NumberCache")
            .field("len", &self.len())
            .finish_non_exhaustive()
    }
}
