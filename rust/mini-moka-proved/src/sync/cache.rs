//! The typed cache that threads share.

use super::builder::CacheBuilder;
use super::iter::Iter;
use super::lock::Lock;
use super::making::{AnyError, Making, Makings, Outcome};
use super::segment_of;
use crate::clock::{nanoseconds, Clock};
use crate::error::{BuildError, OutOfMemory, TimedInsertError};
use crate::handle::Statistics;
use crate::limits::Limits;
use crate::table::{Done, Left, Table, Write};
use crate::typed::{hash, Insertion, Policy, SharedListener, SharedWeigher};
use std::borrow::Borrow;
use std::collections::hash_map::RandomState;
use std::collections::VecDeque;
use std::convert::Infallible;
use std::fmt;
use std::hash::{BuildHasher, Hash};
use std::mem;
use std::sync::Arc;
use std::time::Duration;

/// A cache of any keys and values, which threads share.
///
/// A clone is another handle on the same cache. [`get`](Self::get) returns a clone of the value, so
/// store an `Arc` if cloning it is expensive.
///
/// ```
/// use mini_moka_proved::sync::Cache;
/// use std::thread;
///
/// let cache = Cache::new(10_000);
/// let threads: Vec<_> = (0..4)
///     .map(|number| {
///         let cache = cache.clone();
///         thread::spawn(move || cache.insert(number, "seen".to_string()))
///     })
///     .collect();
/// for thread in threads {
///     thread.join().unwrap();
/// }
/// assert_eq!(cache.get(&3), Some("seen".to_string()));
/// assert_eq!(cache.len(), 4);
/// ```
///
/// # Segments
///
/// A key belongs to one segment, which has its part of the capacity and its own admission policy. A
/// call waits only for calls in the same segment. If keys are unevenly spread, one segment rejects
/// entries while another has capacity left.
///
/// # Calls
///
/// The calls are those of the typed cache for one thread, [`crate::Cache`]: size, moments, memory
/// and panics are as there. A call with a key is one step: another thread sees the cache before it
/// or after it. [`get_with`](Self::get_with) and [`try_get_with`](Self::try_get_with) make each value
/// once. Calls on all segments, as [`len`](Self::len), lock one segment after another.
///
/// # Code of the program
///
/// While a segment is locked, a call runs `Eq` of keys and `Clone` of values,
/// [`iter`](Self::iter) also `Clone` of keys, [`modify`](Self::modify) its change, and a weigher if it
/// is called for that or for a value that [`get_with`](Self::get_with) made. They must not call the
/// cache. All else runs while no lock is held, and may call it: `Hash`, other closures, the listener,
/// and what is dropped.
pub struct Cache<K, V, S = RandomState> {
    shared: Arc<Shared<K, V, S>>,
}

struct Shared<K, V, S> {
    segments: Vec<Segment<K, V>>,
    hasher: S,
    clock: Clock,
    policy: Policy,
    listener: Option<SharedListener<K, V>>,
    weigher: Option<SharedWeigher<K, V>>,
}

/// A segment, which fills its cache lines, so that threads in different segments don't share one.
#[repr(align(128))]
pub(super) struct Segment<K, V> {
    pub(super) state: Lock<State<K, V>>,
}

/// The entries of a segment, and the values that threads are making for it.
pub(super) struct State<K, V> {
    pub(super) table: Table<K, V>,
    makings: Makings<K, V>,
}

impl<K: Hash + Eq, V> Cache<K, V> {
    /// Creates a cache of at most `max_capacity` entries, which don't expire.
    pub fn new(max_capacity: u64) -> Cache<K, V> {
        Cache::builder().max_capacity(max_capacity).build()
    }

    /// Returns a builder of caches.
    pub fn builder() -> CacheBuilder<K, V> {
        CacheBuilder::default()
    }
}

impl<K: Hash + Eq, V, S: BuildHasher> Cache<K, V, S> {
    pub(super) fn open(
        limits: &Limits,
        count: usize,
        hasher: S,
        listener: Option<SharedListener<K, V>>,
        weigher: Option<SharedWeigher<K, V>>,
    ) -> Result<Cache<K, V, S>, BuildError> {
        let mut segments = Vec::new();
        segments
            .try_reserve_exact(count)
            .map_err(OutOfMemory::from)?;
        for at in 0..count {
            let state = State {
                table: Table::open(&limits.part(count as u64, at as u64))?,
                makings: Makings::new(),
            };
            segments.push(Segment {
                state: Lock::new(state),
            });
        }
        let shared = Shared {
            segments,
            hasher,
            clock: limits.clock(),
            policy: Policy::of(limits),
            listener,
            weigher,
        };
        Ok(Cache {
            shared: Arc::new(shared),
        })
    }

    /// Looks up the key, and returns a clone of its value. The key is counted, found or not, and its
    /// entry becomes the most recently used one of its segment.
    pub fn get<Q>(&self, key: &Q) -> Option<V>
    where
        K: Borrow<Q>,
        Q: Hash + Eq + ?Sized,
        V: Clone,
    {
        let hash = self.hash(key);
        self.visit(hash, |state, now| state.get(key, hash, now))
    }

    /// Looks up the key, and returns a clone of its value. It doesn't count as an access.
    pub fn peek<Q>(&self, key: &Q) -> Option<V>
    where
        K: Borrow<Q>,
        Q: Hash + Eq + ?Sized,
        V: Clone,
    {
        let hash = self.hash(key);
        self.visit(hash, |state, now| {
            let slot = state.table.peek(key, hash, now)?;
            Some(state.table.pair(slot).1.clone())
        })
    }

    /// Returns `true` if the key has an unexpired entry. It doesn't count as an access.
    pub fn contains_key<Q>(&self, key: &Q) -> bool
    where
        K: Borrow<Q>,
        Q: Hash + Eq + ?Sized,
    {
        let hash = self.hash(key);
        self.visit(hash, |state, now| state.table.contains(key, hash, now))
    }

    /// Inserts the value under the key, and returns what became of it. The key's entry, if there is
    /// one, keeps its own key.
    ///
    /// # Panics
    ///
    /// If memory is refused.
    pub fn insert(&self, key: K, value: V) -> Insertion<V> {
        match self.try_insert(key, value) {
            Ok(insertion) => insertion,
            Err(error) => panic!("{error}"),
        }
    }

    /// Inserts the value under the key as [`insert`](Self::insert) does.
    ///
    /// # Errors
    ///
    /// [`OutOfMemory`] if memory for the entry is refused. Then the key and the value are dropped.
    pub fn try_insert(&self, key: K, value: V) -> Result<Insertion<V>, OutOfMemory> {
        let insertion = self.put(key, value, None);
        insertion.map_err(|_| OutOfMemory)
    }

    /// Inserts the value under the key as [`insert`](Self::insert) does, with a time to live of its
    /// own. The entry expires after that, or after the cache's time to live if that is shorter.
    ///
    /// # Errors
    ///
    /// Those of [`unsync::Cache`](crate::unsync::Cache::insert_with_time_to_live).
    pub fn insert_with_time_to_live(
        &self,
        key: K,
        value: V,
        time_to_live: Duration,
    ) -> Result<Insertion<V>, TimedInsertError> {
        self.put(key, value, Some(time_to_live))
    }

    fn put(
        &self,
        key: K,
        value: V,
        own: Option<Duration>,
    ) -> Result<Insertion<V>, TimedInsertError> {
        let hash = self.hash(&key);
        let weight = self.weigh(&key, &value);
        // What stays in it, and the key of an update, is dropped once the segment is unlocked.
        let mut entry = Some((key, value));
        let mut spare = None;
        self.visit(hash, |state, now| {
            let write = Write { weight, own, now };
            Ok(match state.table.insert(&mut entry, hash, write)? {
                Done::New(_) => Insertion::New,
                Done::Replaced(_, key, old) => {
                    spare = Some(key);
                    Insertion::Replaced(old)
                }
                Done::Rejected(key, value) => {
                    state.table.left.push_back(Left::rejected(key, value));
                    Insertion::Rejected
                }
            })
        })
    }

    /// Changes the value of the key in its place, and returns `true`, or `false` if the key has no
    /// unexpired entry, as [`unsync::Cache::modify`](crate::unsync::Cache::modify) does. No other call
    /// on the key comes between. `change` must not call the cache, which would wait for itself.
    ///
    /// # Panics
    ///
    /// If memory is refused.
    pub fn modify<Q>(&self, key: &Q, change: impl FnOnce(&mut V)) -> bool
    where
        K: Borrow<Q>,
        Q: Hash + Eq + ?Sized,
    {
        let hash = self.hash(key);
        match self.visit(hash, |state, now| {
            state.table.modify(key, hash, now, |key, value| {
                change(value);
                self.weigh(key, value)
            })
        }) {
            Ok(modified) => modified,
            Err(error) => panic!("{error}"),
        }
    }

    /// Looks up the key as [`get`](Self::get) does, and inserts the value that `make` returns if the
    /// key has none.
    ///
    /// However many threads ask for a key at the same time, one of them calls its `make`, and the
    /// others wait for the value. All of them get it, even if the entry is rejected, or if memory for
    /// it is refused. If `make` panics, one of the threads that wait calls its own.
    ///
    /// `make` runs while no lock is held. It may call the cache, but it panics if it asks for its own
    /// key in this way, and it must not wait for a thread that does. Until it returns, other calls
    /// find the key absent. An insert of another thread is then replaced by the value.
    ///
    /// ```
    /// use mini_moka_proved::sync::Cache;
    /// use std::sync::atomic::{AtomicU32, Ordering};
    /// use std::thread;
    ///
    /// let cache = Cache::new(10_000);
    /// let made = AtomicU32::new(0);
    /// thread::scope(|scope| {
    ///     for _ in 0..4 {
    ///         scope.spawn(|| {
    ///             let page = cache.get_with("page", || {
    ///                 made.fetch_add(1, Ordering::Relaxed);
    ///                 "made".to_string()
    ///             });
    ///             assert_eq!(page, "made");
    ///         });
    ///     }
    /// });
    /// assert_eq!(made.into_inner(), 1);
    /// ```
    pub fn get_with(&self, key: K, make: impl FnOnce() -> V) -> V
    where
        V: Clone,
    {
        let made: Result<V, Arc<Infallible>> = self.try_get_with(key, || Ok(make()));
        match made {
            Ok(value) => value,
            Err(never) => match *never {},
        }
    }

    /// Looks up the key as [`get_with`](Self::get_with) does, with a `make` that may fail.
    ///
    /// # Errors
    ///
    /// That of `make`, for each thread that waits for it. Then nothing is inserted, and the next
    /// thread that asks calls its `make`. A thread whose `make` has another type of error doesn't get
    /// it, but calls its own.
    ///
    /// ```
    /// use mini_moka_proved::sync::Cache;
    ///
    /// let cache: Cache<&str, u32> = Cache::new(10_000);
    /// let failed = cache.try_get_with("seven", || "7?".parse());
    /// assert!(failed.is_err());
    /// let made = cache.try_get_with("seven", || "7".parse());
    /// assert_eq!(made, Ok(7));
    /// ```
    pub fn try_get_with<E>(&self, key: K, make: impl FnOnce() -> Result<V, E>) -> Result<V, Arc<E>>
    where
        V: Clone,
        E: Send + Sync + 'static,
    {
        let hash = self.hash(&key);
        let mut key = Some(key);
        loop {
            match self.look(&mut key, hash) {
                Look::Found(value) => return Ok(value),
                Look::Make(maker) => return self.make(&maker, hash, make),
                Look::Wait(making) => {
                    if let Some(result) = making.wait().and_then(own_error) {
                        return result;
                    }
                    // It has neither for this thread, which looks again.
                }
            }
        }
    }

    /// Looks up a key, and a value that a thread makes for it. If there is neither, this thread is to
    /// make one, which takes the key.
    fn look(&self, key: &mut Option<K>, hash: u64) -> Look<'_, K, V>
    where
        V: Clone,
    {
        let segment = self.segment(hash);
        self.visit_segment(segment, |state, now| {
            let sought = match &*key {
                Some(sought) => sought,
                None => unreachable!("only a value of this thread takes the key"),
            };
            if let Some(value) = state.get(sought, hash, now) {
                return Look::Found(value);
            }
            if let Some(making) = state.makings.find(sought, hash) {
                return Look::Wait(making);
            }
            let making = Arc::new(Making::new());
            if let Some(key) = key.take() {
                state.makings.add(key, hash, Arc::clone(&making));
            }
            Look::Make(Maker { segment, making })
        })
    }

    /// Makes a value in this thread, inserts it, and gives it to the threads that wait.
    fn make<E>(
        &self,
        maker: &Maker<'_, K, V>,
        hash: u64,
        make: impl FnOnce() -> Result<V, E>,
    ) -> Result<V, Arc<E>>
    where
        V: Clone,
        E: Send + Sync + 'static,
    {
        let value = match make() {
            Ok(value) => value,
            Err(error) => {
                let error = Arc::new(error);
                maker.fail(Arc::clone(&error) as AnyError);
                return Err(error);
            }
        };
        let made = value.clone();
        self.insert_made(&maker.making, hash, value);
        // No thread begins to wait for a value that isn't in the list.
        if Arc::strong_count(&maker.making) > 1 {
            maker.making.end(Outcome::Made(made.clone()));
        }
        Ok(made)
    }

    /// Inserts a value that was made under its key. In the same step it leaves the list, so each
    /// thread that looks for the key finds it there or in the cache.
    fn insert_made(&self, making: &Arc<Making<V>>, hash: u64, value: V) {
        let mut value = Some(value);
        // What isn't inserted is dropped once the segment is unlocked.
        let mut entry = None;
        self.visit(hash, |state, now| {
            let key = state.makings.remove(making);
            entry = key.and_then(|key| value.take().map(|value| (key, value)));
            let weight = entry
                .as_ref()
                .map_or(0, |(key, value)| self.weigh(key, value));
            let own = None;
            let write = Write { weight, own, now };
            let done = state.table.insert(&mut entry, hash, write);
            match done {
                Ok(Done::Replaced(_, key, old)) => {
                    state.table.left.push_back(Left::replaced(key, old));
                }
                Ok(Done::Rejected(key, value)) => {
                    state.table.left.push_back(Left::rejected(key, value));
                }
                Ok(Done::New(_)) | Err(_) => {}
            }
        });
    }

    /// Removes the entry of the key, and returns its value, unless it is expired.
    pub fn remove<Q>(&self, key: &Q) -> Option<V>
    where
        K: Borrow<Q>,
        Q: Hash + Eq + ?Sized,
    {
        let hash = self.hash(key);
        let removed = self.visit(hash, |state, now| state.table.remove(key, hash, now));
        removed.map(|(_, value)| value)
    }

    /// Removes the entry of the key, if there is one, without returning its value.
    pub fn invalidate<Q>(&self, key: &Q)
    where
        K: Borrow<Q>,
        Q: Hash + Eq + ?Sized,
    {
        let hash = self.hash(key);
        self.visit(hash, |state, now| state.table.invalidate(key, hash, now));
    }

    fn hash<Q: Hash + ?Sized>(&self, key: &Q) -> u64 {
        hash(&self.shared.hasher, key)
    }

    /// Weighs an entry. Without a weigher the table ignores its weight.
    fn weigh(&self, key: &K, value: &V) -> u32 {
        let weigher = self.shared.weigher.as_ref();
        weigher.map_or(0, |weigher| weigher(key, value))
    }
}

impl<K, V, S> Cache<K, V, S> {
    /// Removes all expired entries, also those behind unexpired ones, one segment after another.
    pub fn remove_expired(&self) {
        for segment in &self.shared.segments {
            self.visit_segment(segment, |state, now| state.table.remove_expired(now));
        }
    }

    /// Removes all entries, one segment after another.
    pub fn invalidate_all(&self) {
        for segment in &self.shared.segments {
            self.visit_segment(segment, |state, _| state.table.clear());
        }
    }

    /// Removes all entries, as [`invalidate_all`](Self::invalidate_all) does. It has the name that
    /// std's collections have for this.
    pub fn clear(&self) {
        self.invalidate_all();
    }

    /// Returns an iterator over clones of the unexpired entries, one segment after another. It
    /// doesn't count as an access, and removes none.
    ///
    /// When the iterator reaches a segment, it clones the segment's entries under its lock. So no
    /// thread waits for the rest of the iteration, and each key comes once at most.
    ///
    /// ```
    /// use mini_moka_proved::sync::Cache;
    ///
    /// let cache = Cache::new(10_000);
    /// cache.insert("alice", 7);
    /// for entry in &cache {
    ///     assert_eq!((*entry.key(), *entry.value()), ("alice", 7));
    /// }
    /// ```
    pub fn iter(&self) -> Iter<'_, K, V> {
        Iter::new(&self.shared.segments, self.moment())
    }

    /// Returns the number of entries, including expired ones that no call has removed yet.
    pub fn len(&self) -> usize {
        self.tables(Table::len).sum()
    }

    /// Returns `true` if no segment has an entry, not even an expired one.
    pub fn is_empty(&self) -> bool {
        self.len() == 0
    }

    /// Returns the number of entries, as [`len`](Self::len) does.
    pub fn entry_count(&self) -> u64 {
        self.len() as u64
    }

    /// Returns the weight of the entries, at most `u64::MAX`. Without a weigher it is their number.
    pub fn weighted_size(&self) -> u64 {
        self.tables(Table::weighted_size)
            .fold(0, u64::saturating_add)
    }

    /// Returns the weight that the windows of all segments may have now, at most
    /// `u64::MAX`.
    pub fn window_capacity(&self) -> u64 {
        self.tables(Table::window_capacity)
            .fold(0, u64::saturating_add)
    }

    /// Returns the counts of the calls, and of the entries that left, since the cache was built.
    pub fn statistics(&self) -> Statistics {
        Statistics::sum(self.tables(Table::statistics))
    }

    /// Returns the limits of the cache.
    pub fn policy(&self) -> Policy {
        self.shared.policy
    }

    /// Returns the number of segments.
    pub fn segments(&self) -> usize {
        self.shared.segments.len()
    }

    /// Returns the current moment of the cache's clock. If the cache has no duration, it is always
    /// zero, or that of its [`ManualClock`](crate::ManualClock).
    pub fn now(&self) -> Duration {
        self.shared.clock.elapsed()
    }

    fn moment(&self) -> u64 {
        nanoseconds(self.now())
    }

    /// Returns what a call on the table of each segment returns, one segment after another.
    fn tables<'a, T: 'a>(
        &'a self,
        call: impl Fn(&Table<K, V>) -> T + 'a,
    ) -> impl Iterator<Item = T> + 'a {
        let segments = self.shared.segments.iter();
        segments.map(move |segment| call(&segment.state.lock().table))
    }

    /// Returns the segment of a hash, which needn't be spread over all its bits.
    fn segment(&self, hash: u64) -> &Segment<K, V> {
        let segments = &self.shared.segments;
        let spread = hash.wrapping_mul(0x9E37_79B9_7F4A_7C15);
        &segments[segment_of(spread, segments.len())]
    }

    /// Makes a call in the segment of a hash.
    fn visit<T>(&self, hash: u64, call: impl FnOnce(&mut State<K, V>, u64) -> T) -> T {
        self.visit_segment(self.segment(hash), call)
    }

    /// Makes a call in a locked segment. What leaves in it goes to the listener, or is dropped, once
    /// the segment is unlocked.
    fn visit_segment<T>(
        &self,
        segment: &Segment<K, V>,
        call: impl FnOnce(&mut State<K, V>, u64) -> T,
    ) -> T {
        let now = self.moment();
        let mut state = segment.state.lock();
        let result = call(&mut state, now);
        let left = &mut state.table.left;
        if left.is_empty() {
            return result;
        }
        let first = left.pop_front();
        // Mostly no other one leaves. Then the queue keeps its memory.
        let others = if left.is_empty() {
            VecDeque::new()
        } else {
            mem::take(left)
        };
        drop(state);
        self.tell(first, Telling { segment, others });
        result
    }

    /// Gives the entries that left to the listener, or drops them.
    fn tell(&self, first: Option<Left<K, V>>, mut telling: Telling<'_, K, V>) {
        let mut next = first;
        while let Some(Left { key, value, cause }) = next {
            if let Some(listener) = &self.shared.listener {
                listener(key, value, cause);
            }
            next = telling.others.pop_front();
        }
    }
}

impl<K: Eq, V: Clone> State<K, V> {
    /// Looks up the key, which counts as an access.
    fn get<Q>(&mut self, key: &Q, hash: u64, now: u64) -> Option<V>
    where
        K: Borrow<Q>,
        Q: Eq + ?Sized,
    {
        let slot = self.table.get(key, hash, now)?;
        Some(self.table.pair(slot).1.clone())
    }
}

/// The result of a look-up by a thread that can make the value.
enum Look<'a, K, V> {
    Found(V),
    Wait(Arc<Making<V>>),
    Make(Maker<'a, K, V>),
}

/// Returns the result of another thread's `make`, or `None` if its error has another type.
fn own_error<V, E: Send + Sync + 'static>(
    result: Result<V, AnyError>,
) -> Option<Result<V, Arc<E>>> {
    match result {
        Ok(value) => Some(Ok(value)),
        Err(error) => error.downcast().ok().map(Err),
    }
}

/// The part of the thread that makes a value. When it is dropped, also by a panic, no thread waits any
/// longer.
struct Maker<'a, K, V> {
    segment: &'a Segment<K, V>,
    making: Arc<Making<V>>,
}

impl<K, V> Maker<'_, K, V> {
    /// Gives an error to the threads that wait.
    fn fail(&self, error: AnyError) {
        // The key is dropped once the segment is unlocked.
        let _key = self.segment.state.lock().makings.remove(&self.making);
        self.making.end(Outcome::Failed(error));
    }
}

impl<K, V> Drop for Maker<'_, K, V> {
    fn drop(&mut self) {
        let _key = self.segment.state.lock().makings.remove(&self.making);
        self.making.end(Outcome::Abandoned);
    }
}

/// The entries that left a segment in a call, but for the first. Those that remain, since the
/// listener or a value's drop has panicked, are left to the next call.
struct Telling<'a, K, V> {
    segment: &'a Segment<K, V>,
    others: VecDeque<Left<K, V>>,
}

impl<K, V> Drop for Telling<'_, K, V> {
    fn drop(&mut self) {
        if !self.others.is_empty() {
            let left = &mut self.segment.state.lock().table.left;
            self.others.append(left);
            mem::swap(left, &mut self.others);
        }
    }
}

impl<K, V, S> Clone for Cache<K, V, S> {
    /// Returns another handle on the same cache.
    fn clone(&self) -> Cache<K, V, S> {
        Cache {
            shared: Arc::clone(&self.shared),
        }
    }
}

impl<K, V, S> fmt::Debug for Cache<K, V, S> {
    fn fmt(&self, f: &mut fmt::Formatter<'_>) -> fmt::Result {
        f.debug_struct("Cache")
            .field("len", &self.len())
            .field("segments", &self.segments())
            .finish_non_exhaustive()
    }
}
