//! The parts that the typed caches for one thread and for several have in common.

use crate::handle::Cause;
use crate::limits::Limits;
use std::hash::{BuildHasher, Hash, Hasher};
use std::ops::Deref;
use std::time::Duration;

/// The result of an insert into a typed cache.
#[derive(Clone, Copy, Debug, PartialEq, Eq, Hash)]
pub enum Insertion<V> {
    /// The cache has a new entry.
    New,
    /// The key's entry has the new value in place of this one.
    Replaced(V),
    /// The full cache did not admit the new entry, because its key is used no more than those that
    /// it would have evicted. The cache has no entry of the key.
    Rejected,
}

/// The value of a key that was looked up or made.
#[derive(Clone, Debug, PartialEq, Eq, Hash)]
pub enum ValueRef<'a, V> {
    /// The value is in the cache.
    Cached(&'a V),
    /// The value was made, and the cache did not admit it, or was refused memory for its entry.
    Rejected(V),
}

impl<V> Deref for ValueRef<'_, V> {
    type Target = V;

    fn deref(&self) -> &V {
        match self {
            ValueRef::Cached(value) => value,
            ValueRef::Rejected(value) => value,
        }
    }
}

impl<V: Clone> ValueRef<'_, V> {
    /// Returns the value, cloned if it is in the cache.
    pub fn into_owned(self) -> V {
        match self {
            ValueRef::Cached(value) => value.clone(),
            ValueRef::Rejected(value) => value,
        }
    }
}

/// The limits of a typed cache.
#[derive(Clone, Copy, Debug, PartialEq, Eq)]
pub struct Policy {
    max_capacity: Option<u64>,
    time_to_live: Option<Duration>,
    time_to_idle: Option<Duration>,
}

impl Policy {
    pub(crate) fn of(limits: &Limits) -> Policy {
        Policy {
            max_capacity: limits.max_capacity,
            time_to_live: limits.time_to_live,
            time_to_idle: limits.time_to_idle,
        }
    }

    /// Returns the maximum number of entries, or with a weigher their maximum weight, if one is set.
    pub fn max_capacity(&self) -> Option<u64> {
        self.max_capacity
    }

    /// Returns the time that an entry lives after its last write, if one is set.
    pub fn time_to_live(&self) -> Option<Duration> {
        self.time_to_live
    }

    /// Returns the time that an entry lives after its last read or write, if one is set.
    pub fn time_to_idle(&self) -> Option<Duration> {
        self.time_to_idle
    }
}

/// Hashes a key.
pub(crate) fn hash<Q: Hash + ?Sized>(state: &impl BuildHasher, key: &Q) -> u64 {
    let mut hasher = state.build_hasher();
    key.hash(&mut hasher);
    hasher.finish()
}

/// A listener of a cache for one thread.
pub(crate) type Listener<K, V> = Box<dyn FnMut(K, V, Cause) + Send>;

/// A listener of a cache that threads share.
pub(crate) type SharedListener<K, V> = Box<dyn Fn(K, V, Cause) + Send + Sync>;

/// A weigher of a cache for one thread.
pub(crate) type Weigher<K, V> = Box<dyn FnMut(&K, &V) -> u32 + Send>;

/// A weigher of a cache that threads share.
pub(crate) type SharedWeigher<K, V> = Box<dyn Fn(&K, &V) -> u32 + Send + Sync>;

/// Defines the setters that the builders of typed caches have in common. Their limits are in the
/// field `limits`.
macro_rules! limit_setters {
    () => {
        /// Sets the maximum number of entries, or with a weigher the maximum weight of all. With 0 the
        /// cache keeps nothing, or only entries of weight 0.
        pub fn max_capacity(mut self, max_capacity: u64) -> Self {
            self.limits.max_capacity = Some(max_capacity);
            self
        }

        /// Reserves memory for `entries` entries from the start. An insert that finds the memory full
        /// doubles it, in time linear in the number of entries.
        pub fn initial_capacity(mut self, entries: usize) -> Self {
            self.limits.initial_capacity = entries;
            self
        }

        /// Sets the time that an entry lives after its last write. It is expired from the end of that
        /// time on.
        pub fn time_to_live(mut self, duration: Duration) -> Self {
            self.limits.time_to_live = Some(duration);
            self
        }

        /// Sets the time that an entry lives after its last read or write.
        pub fn time_to_idle(mut self, duration: Duration) -> Self {
            self.limits.time_to_idle = Some(duration);
            self
        }

        /// Makes the window's share of the capacity follow the calls. It is the best choice if nothing
        /// is known about the keys.
        ///
        /// The window, where new entries begin, has 1 percent at first, and 80 percent of the rest is
        /// for entries that are used there. It grows when keys return that it gave up, to 80 percent
        /// at most. Call `window_share` or `protected_share` after this to begin elsewhere. Without a
        /// capacity or a window the cache doesn't adapt.
        pub fn adaptive(mut self) -> Self {
            self.limits.shares = Shares::ADAPTIVE;
            self
        }

        /// Sets the window's share of the capacity, in percent. It is 1 by default, and with 0 there
        /// is no window.
        pub fn window_share(mut self, percent: u8) -> Self {
            self.limits.shares.window = percent;
            self
        }

        /// Sets the share of the capacity outside of the window, in percent, that is for entries used
        /// there. It is 0 by default.
        pub fn protected_share(mut self, percent: u8) -> Self {
            self.limits.shares.protected = percent;
            self
        }

        /// Makes the cache read a coarse clock, which costs less and lags by at most 10 ms. It is used
        /// on 64-bit Linux.
        pub fn coarse_clock(mut self) -> Self {
            self.limits.clock = Source::Coarse;
            self
        }

        /// Makes the cache read a clock that the program sets, for tests and simulators. The last call
        /// of this one and `coarse_clock` holds.
        pub fn manual_clock(mut self, clock: &ManualClock) -> Self {
            self.limits.clock = Source::Manual(clock.clone());
            self
        }
    };
}

pub(crate) use limit_setters;
