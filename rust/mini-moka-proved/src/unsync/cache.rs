//! The typed cache for one thread.

use super::builder::CacheBuilder;
use crate::clock::{nanoseconds, Clock};
use crate::error::{BuildError, OutOfMemory, TimedInsertError};
use crate::handle::Statistics;
use crate::limits::Limits;
use crate::table::{taken, Done, Left, Table, Write};
use crate::typed::{hash, Insertion, Listener, Policy, ValueRef, Weigher};
use std::borrow::Borrow;
use std::collections::hash_map::RandomState;
use std::fmt;
use std::hash::{BuildHasher, Hash};
use std::iter::FusedIterator;
use std::time::Duration;

/// A cache of any keys and values, for one thread.
///
/// ```
/// use mini_moka_proved::{Cache, Insertion};
///
/// let mut cache = Cache::new(100);
/// cache.insert("alice".to_string(), 7);
/// assert_eq!(cache.get("alice"), Some(&7));
/// assert_eq!(cache.insert("alice".to_string(), 8), Insertion::Replaced(7));
/// assert_eq!(*cache.get_or_insert_with("bob".to_string(), || 9), 9);
/// assert_eq!(cache.remove("alice"), Some(8));
/// assert_eq!(cache.len(), 1);
/// ```
///
/// Which entries stay is decided by the proved library, as for a
/// [`NumberCache`](crate::NumberCache) of the keys' hashes. The keys and values are in safe Rust,
/// which is tested. Keys with the same hash are distinct, as in a `HashMap`.
///
/// # Size
///
/// A full cache admits an entry only if its estimated frequency exceeds those of its victims, the
/// least recently used entries. With a capacity of 100 or more, a hundredth of it is a window, where
/// new entries begin. In a smaller cache a new entry may be rejected at once. Each entry weighs 1,
/// unless the cache has a [weigher](CacheBuilder::weigher). An update with a heavier value may leave
/// such a cache above its capacity. Then the next call that looks for expired entries first evicts up
/// to 100 entries. An insert at a key that has an entry, and [`modify`](Self::modify), evict as many
/// as it takes.
///
/// # Moments
///
/// A call reads the cache's clock if the cache has a duration. An expired entry is never returned.
/// It leaves in the next call that looks for expired entries, which all do but
/// [`peek`](Self::peek), [`iter`](Self::iter) and those that return counts.
///
/// # Memory
///
/// As collections of std do, a call panics or aborts if memory is refused, unless its documentation
/// says otherwise. [`try_insert`](Self::try_insert) returns an error. An entry takes some 110 bytes
/// beside its key and value.
///
/// # Panics of the program's code
///
/// If `Eq` or `Hash` of a key, a predicate, `make`, a weigher or a listener panics, the cache can
/// still be used, and has lost no entry. If a value panics when it is dropped, the others that left in that call
/// are dropped in the next one.
///
/// # Threads
///
/// A cache may move to another thread if its keys, values and hasher may. Threads share a
/// [`sync::Cache`](crate::sync::Cache).
///
/// ```
/// fn may_go_to_another_thread<T: Send>() {}
/// may_go_to_another_thread::<mini_moka_proved::Cache<String, Vec<u8>>>();
/// ```
///
/// ```compile_fail
/// fn may_go_to_another_thread<T: Send>() {}
/// may_go_to_another_thread::<mini_moka_proved::Cache<String, std::rc::Rc<u8>>>();
/// ```
pub struct Cache<K, V, S = RandomState> {
    table: Table<K, V>,
    hasher: S,
    clock: Clock,
    policy: Policy,
    listener: Option<Listener<K, V>>,
    weigher: Option<Weigher<K, V>>,
}

impl<K: Hash + Eq, V> Cache<K, V> {
    /// Creates a cache of at most `max_capacity` entries, which don't expire.
    pub fn new(max_capacity: u64) -> Cache<K, V> {
        Cache::builder().max_capacity(max_capacity).build()
    }

    /// Returns a builder of caches.
    pub fn builder() -> CacheBuilder<K, V> {
        CacheBuilder::default()
    }
}

impl<K: Hash + Eq, V, S: BuildHasher> Cache<K, V, S> {
    pub(super) fn open(
        limits: &Limits,
        hasher: S,
        listener: Option<Listener<K, V>>,
        weigher: Option<Weigher<K, V>>,
    ) -> Result<Cache<K, V, S>, BuildError> {
        Ok(Cache {
            table: Table::open(limits)?,
            hasher,
            clock: limits.clock(),
            policy: Policy::of(limits),
            listener,
            weigher,
        })
    }

    /// Looks up the key, and returns its value. The key is counted, found or not, and its entry
    /// becomes the most recently used one.
    pub fn get<Q>(&mut self, key: &Q) -> Option<&V>
    where
        K: Borrow<Q>,
        Q: Hash + Eq + ?Sized,
    {
        let slot = self.table.get(key, self.hash(key), self.moment());
        self.tell();
        slot.map(|slot| self.table.pair(slot).1)
    }

    /// Looks up the key, and returns its value. It doesn't count as an access: it counts, moves and
    /// removes nothing.
    pub fn peek<Q>(&self, key: &Q) -> Option<&V>
    where
        K: Borrow<Q>,
        Q: Hash + Eq + ?Sized,
    {
        let slot = self.table.peek(key, self.hash(key), self.moment());
        slot.map(|slot| self.table.pair(slot).1)
    }

    /// Returns `true` if the key has an unexpired entry. It doesn't count as an access.
    pub fn contains_key<Q>(&mut self, key: &Q) -> bool
    where
        K: Borrow<Q>,
        Q: Hash + Eq + ?Sized,
    {
        let found = self.table.contains(key, self.hash(key), self.moment());
        self.tell();
        found
    }

    /// Inserts the value under the key, and returns what became of it. The key's entry, if there is
    /// one, keeps its own key.
    ///
    /// # Panics
    ///
    /// If memory is refused.
    pub fn insert(&mut self, key: K, value: V) -> Insertion<V> {
        match self.try_insert(key, value) {
            Ok(insertion) => insertion,
            Err(error) => panic!("{error}"),
        }
    }

    /// Inserts the value under the key as [`insert`](Self::insert) does.
    ///
    /// # Errors
    ///
    /// [`OutOfMemory`] if memory for the entry is refused. Then the key and the value are dropped.
    pub fn try_insert(&mut self, key: K, value: V) -> Result<Insertion<V>, OutOfMemory> {
        let insertion = self.put(key, value, None);
        insertion.map_err(|_| OutOfMemory)
    }

    /// Inserts the value under the key as [`insert`](Self::insert) does, with a time to live of its
    /// own. The entry expires after that, or after the cache's time to live if that is shorter. The
    /// next insert at the key gives it a new one.
    ///
    /// ```
    /// use mini_moka_proved::{Cache, ManualClock};
    /// use std::time::Duration;
    ///
    /// let clock = ManualClock::new();
    /// let hour = Duration::from_secs(3600);
    /// let mut cache = Cache::builder().time_to_live(hour).manual_clock(&clock).build();
    /// cache.insert_with_time_to_live("token", 7, Duration::from_secs(60))?;
    /// clock.advance(Duration::from_secs(60));
    /// assert_eq!(cache.get("token"), None);
    /// # Ok::<(), mini_moka_proved::TimedInsertError>(())
    /// ```
    ///
    /// # Errors
    ///
    /// [`TimedInsertError::NoTimeToLive`] if the cache has none, and
    /// [`TimedInsertError::OutOfMemory`] if memory is refused. Then the key and the value are
    /// dropped.
    pub fn insert_with_time_to_live(
        &mut self,
        key: K,
        value: V,
        time_to_live: Duration,
    ) -> Result<Insertion<V>, TimedInsertError> {
        self.put(key, value, Some(time_to_live))
    }

    fn put(
        &mut self,
        key: K,
        value: V,
        own: Option<Duration>,
    ) -> Result<Insertion<V>, TimedInsertError> {
        let hash = self.hash(&key);
        let write = self.write(&key, &value, own);
        let done = self.table.insert(&mut Some((key, value)), hash, write);
        let insertion = done.map(|done| match done {
            Done::New(_) => Insertion::New,
            Done::Replaced(_, _, old) => Insertion::Replaced(old),
            Done::Rejected(key, value) => {
                self.table.left.push_back(Left::rejected(key, value));
                Insertion::Rejected
            }
        });
        self.tell();
        insertion
    }

    /// Changes the value of the key in its place, and returns `true`, or `false` if the key has no
    /// unexpired entry. Then `change` isn't called.
    ///
    /// It acts as an insert of the changed value, so the entry lives as long as a new one. The
    /// listener doesn't get the value. If `change` or the weigher panics, the value stays as it is
    /// then.
    ///
    /// ```
    /// use mini_moka_proved::Cache;
    ///
    /// let mut visits = Cache::new(100);
    /// for page in ["home", "about", "home"] {
    ///     if !visits.modify(page, |count| *count += 1) {
    ///         visits.insert(page, 1);
    ///     }
    /// }
    /// assert_eq!(visits.get("home"), Some(&2));
    /// ```
    ///
    /// # Panics
    ///
    /// If memory is refused.
    pub fn modify<Q>(&mut self, key: &Q, change: impl FnOnce(&mut V)) -> bool
    where
        K: Borrow<Q>,
        Q: Hash + Eq + ?Sized,
    {
        let (hash, now) = (self.hash(key), self.moment());
        let weigher = &mut self.weigher;
        let modified = self.table.modify(key, hash, now, |key, value| {
            change(value);
            weigh(weigher, key, value)
        });
        self.tell();
        match modified {
            Ok(modified) => modified,
            Err(error) => panic!("{error}"),
        }
    }

    /// Looks up the key as [`get`](Self::get) does, and inserts the value that `make` returns if the
    /// key has none.
    ///
    /// If the new entry is rejected, or memory for it is refused, the value is returned as
    /// [`ValueRef::Rejected`], and the listener doesn't get it.
    ///
    /// ```
    /// use mini_moka_proved::Cache;
    ///
    /// let mut lengths = Cache::new(100);
    /// assert_eq!(*lengths.get_or_insert_with("alice", || 5), 5);
    /// assert_eq!(*lengths.get_or_insert_with("alice", || unreachable!()), 5);
    /// ```
    pub fn get_or_insert_with(&mut self, key: K, make: impl FnOnce() -> V) -> ValueRef<'_, V> {
        let made: Result<_, Never> = self.try_get_or_insert_with(key, || Ok(make()));
        match made {
            Ok(value) => value,
            Err(never) => match never {},
        }
    }

    /// Looks up the key as [`get_or_insert_with`](Self::get_or_insert_with) does, with a `make` that
    /// may fail.
    ///
    /// # Errors
    ///
    /// That of `make`. Then nothing is inserted.
    pub fn try_get_or_insert_with<E>(
        &mut self,
        key: K,
        make: impl FnOnce() -> Result<V, E>,
    ) -> Result<ValueRef<'_, V>, E> {
        let hash = self.hash(&key);
        let found = self.table.get(&key, hash, self.moment());
        self.tell();
        if let Some(slot) = found {
            return Ok(ValueRef::Cached(self.table.pair(slot).1));
        }
        let value = make()?;
        let write = self.write(&key, &value, None);
        let mut entry = Some((key, value));
        let done = self.table.insert(&mut entry, hash, write);
        let place = match done {
            Ok(Done::New(slot)) => Ok(slot),
            // The clock was set back, so an expired entry was live again.
            Ok(Done::Replaced(slot, key, old)) => {
                self.table.left.push_back(Left::replaced(key, old));
                Ok(slot)
            }
            Ok(Done::Rejected(_, value)) => Err(value),
            Err(_) => Err(taken(&mut entry).1),
        };
        self.tell();
        Ok(match place {
            Ok(slot) => ValueRef::Cached(self.table.pair(slot).1),
            Err(value) => ValueRef::Rejected(value),
        })
    }

    /// Removes the entry of the key, and returns its value, unless it is expired.
    pub fn remove<Q>(&mut self, key: &Q) -> Option<V>
    where
        K: Borrow<Q>,
        Q: Hash + Eq + ?Sized,
    {
        let removed = self.table.remove(key, self.hash(key), self.moment());
        self.tell();
        removed.map(|(_, value)| value)
    }

    /// Removes the entry of the key, if there is one, without returning its value.
    pub fn invalidate<Q>(&mut self, key: &Q)
    where
        K: Borrow<Q>,
        Q: Hash + Eq + ?Sized,
    {
        self.table.invalidate(key, self.hash(key), self.moment());
        self.tell();
    }

    /// Removes the entries for which the predicate returns `true`, in time linear in the number of
    /// entries. It is also asked for expired entries that are still there.
    ///
    /// ```
    /// use mini_moka_proved::Cache;
    ///
    /// let mut cache = Cache::new(100);
    /// for number in 0..10 {
    ///     cache.insert(number, number * number);
    /// }
    /// cache.invalidate_entries_if(|_, square| square % 2 == 0);
    /// assert_eq!(cache.len(), 5);
    /// ```
    pub fn invalidate_entries_if(&mut self, predicate: impl FnMut(&K, &V) -> bool) {
        self.table.invalidate_if(predicate, self.moment());
        self.tell();
    }

    /// Removes all expired entries, also those behind unexpired ones, in time linear in the number of
    /// entries. Without it an expired entry may keep its memory for long: other calls remove a batch
    /// of them at most.
    pub fn remove_expired(&mut self) {
        self.table.remove_expired(self.moment());
        self.tell();
    }

    /// Removes all entries, in time linear in their number.
    pub fn invalidate_all(&mut self) {
        self.table.clear();
        self.tell();
    }

    /// Removes all entries, as [`invalidate_all`](Self::invalidate_all) does. It has the name that
    /// std's collections have for this.
    pub fn clear(&mut self) {
        self.invalidate_all();
    }

    fn hash<Q: Hash + ?Sized>(&self, key: &Q) -> u64 {
        hash(&self.hasher, key)
    }

    /// Weighs an entry that is to be written now.
    fn write(&mut self, key: &K, value: &V, own: Option<Duration>) -> Write {
        let weight = weigh(&mut self.weigher, key, value);
        let now = self.moment();
        Write { weight, own, now }
    }
}

impl<K, V, S> Cache<K, V, S> {
    /// Returns an iterator over the unexpired entries. Those of the window come last, and the others
    /// before them, each least recently used first, as [`ByteCache::iter`](crate::ByteCache::iter)
    /// says. It doesn't count as an access, and removes none.
    ///
    /// It first notes the places of all entries, in time linear in their number.
    ///
    /// ```
    /// use mini_moka_proved::Cache;
    ///
    /// let mut cache = Cache::new(100);
    /// cache.insert("alice", 7);
    /// cache.insert("bob", 8);
    /// let sum: i32 = cache.iter().map(|(_, number)| number).sum();
    /// assert_eq!(sum, 15);
    /// ```
    pub fn iter(&self) -> Iter<'_, K, V> {
        Iter {
            slots: self.table.walk(self.moment()).into_iter(),
            table: &self.table,
        }
    }

    /// Returns the number of entries, including expired ones that no call has removed yet. It takes
    /// constant time.
    pub fn len(&self) -> usize {
        self.table.len()
    }

    /// Returns `true` if the cache has no entry, not even an expired one.
    pub fn is_empty(&self) -> bool {
        self.len() == 0
    }

    /// Returns the number of entries, as [`len`](Self::len) does.
    pub fn entry_count(&self) -> u64 {
        self.len() as u64
    }

    /// Returns the weight of the entries, at most `u64::MAX`. Without a weigher it is their number.
    pub fn weighted_size(&self) -> u64 {
        self.table.weighted_size()
    }

    /// Returns the weight that the window may have now, as
    /// [`ByteCache::window_capacity`](crate::ByteCache::window_capacity) does.
    pub fn window_capacity(&self) -> u64 {
        self.table.window_capacity()
    }

    /// Returns the counts of the calls, and of the entries that left, since the cache was built.
    ///
    /// ```
    /// use mini_moka_proved::Cache;
    ///
    /// let mut cache = Cache::new(100);
    /// cache.insert("alice", 7);
    /// let _ = cache.get("alice");
    /// let _ = cache.get("bob");
    /// assert_eq!(cache.statistics().hit_rate(), Some(0.5));
    /// ```
    pub fn statistics(&self) -> Statistics {
        self.table.statistics()
    }

    /// Returns the limits of the cache.
    pub fn policy(&self) -> Policy {
        self.policy
    }

    /// Returns the current moment of the cache's clock. If the cache has no duration, it is always
    /// zero, or that of its [`ManualClock`](crate::ManualClock).
    pub fn now(&self) -> Duration {
        self.clock.elapsed()
    }

    fn moment(&self) -> u64 {
        nanoseconds(self.now())
    }

    /// Gives the entries that left to the listener, or drops them.
    fn tell(&mut self) {
        // One by one, so that the others stay queued if the program's code panics.
        while let Some(Left { key, value, cause }) = self.table.left.pop_front() {
            if let Some(listener) = &mut self.listener {
                listener(key, value, cause);
            }
        }
    }
}

/// Weighs an entry. Without a weigher the table ignores its weight.
fn weigh<K, V>(weigher: &mut Option<Weigher<K, V>>, key: &K, value: &V) -> u32 {
    weigher.as_mut().map_or(0, |weigher| weigher(key, value))
}

/// The error of a `make` that doesn't fail.
enum Never {}

/// An iterator over the unexpired entries of a cache, created by [`Cache::iter`].
pub struct Iter<'a, K, V> {
    table: &'a Table<K, V>,
    slots: std::vec::IntoIter<u32>,
}

impl<'a, K, V> Iterator for Iter<'a, K, V> {
    type Item = (&'a K, &'a V);

    fn next(&mut self) -> Option<(&'a K, &'a V)> {
        self.slots.next().map(|slot| self.table.pair(slot))
    }

    fn size_hint(&self) -> (usize, Option<usize>) {
        self.slots.size_hint()
    }
}

impl<K, V> ExactSizeIterator for Iter<'_, K, V> {}

impl<K, V> FusedIterator for Iter<'_, K, V> {}

impl<K, V> fmt::Debug for Iter<'_, K, V> {
    fn fmt(&self, f: &mut fmt::Formatter<'_>) -> fmt::Result {
        f.debug_struct("Iter")
            .field("left", &self.slots.len())
            .finish_non_exhaustive()
    }
}

impl<'a, K, V, S> IntoIterator for &'a Cache<K, V, S> {
    type Item = (&'a K, &'a V);
    type IntoIter = Iter<'a, K, V>;

    fn into_iter(self) -> Iter<'a, K, V> {
        self.iter()
    }
}

impl<K: fmt::Debug, V: fmt::Debug, S> fmt::Debug for Cache<K, V, S> {
    /// Shows the unexpired entries, as a map does.
    fn fmt(&self, f: &mut fmt::Formatter<'_>) -> fmt::Result {
        f.debug_map().entries(self).finish()
    }
}
