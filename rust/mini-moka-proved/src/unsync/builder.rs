//! The builder of typed caches for one thread.

use super::cache::Cache;
use crate::clock::{ManualClock, Source};
use crate::error::BuildError;
use crate::handle::Cause;
use crate::limits::{Limits, Shares};
use crate::typed::{limit_setters, Listener, Weigher};
use std::collections::hash_map::RandomState;
use std::fmt;
use std::hash::{BuildHasher, Hash};
use std::time::Duration;

/// Builds a [`Cache`] for one thread. A cache has only the limits that are set.
///
/// ```
/// use mini_moka_proved::Cache;
/// use std::time::Duration;
///
/// let cache: Cache<String, u32> = Cache::builder()
///     .max_capacity(10_000)
///     .adaptive()
///     .time_to_live(Duration::from_secs(30 * 60))
///     .build();
/// assert!(cache.is_empty());
/// ```
#[must_use]
pub struct CacheBuilder<K, V> {
    limits: Limits,
    listener: Option<Listener<K, V>>,
    weigher: Option<Weigher<K, V>>,
}

impl<K: Hash + Eq, V> CacheBuilder<K, V> {
    /// Creates a builder of caches of at most `max_capacity` entries.
    pub fn new(max_capacity: u64) -> CacheBuilder<K, V> {
        CacheBuilder::default().max_capacity(max_capacity)
    }

    limit_setters!();

    /// Sets a listener, which gets each entry that leaves the cache, in the call in which it leaves,
    /// with the cause.
    ///
    /// It doesn't get what a call returns: the value that `insert` replaces, and the entry that
    /// `remove` removes. It gets the others, a rejected one too. Dropping the cache drops its entries.
    /// If the listener panics, the next call goes on with the entries that are left.
    ///
    /// ```
    /// use mini_moka_proved::{Cache, Cause};
    /// use std::sync::mpsc::channel;
    ///
    /// let (sender, left) = channel();
    /// let mut cache = Cache::builder()
    ///     .eviction_listener(move |key, value, cause| {
    ///         let _ = sender.send((key, value, cause));
    ///     })
    ///     .build();
    /// cache.insert("alice", 7);
    /// cache.invalidate("alice");
    /// assert_eq!(left.try_recv(), Ok(("alice", 7, Cause::Explicit)));
    /// ```
    pub fn eviction_listener(
        mut self,
        listener: impl FnMut(K, V, Cause) + Send + 'static,
    ) -> CacheBuilder<K, V> {
        self.listener = Some(Box::new(listener));
        self
    }

    /// Sets a weigher, which returns what an entry weighs: any unit that the capacity has too. Without
    /// one each entry weighs 1.
    ///
    /// It is called once for each value that is inserted or changed.
    ///
    /// ```
    /// use mini_moka_proved::Cache;
    ///
    /// let mut pages: Cache<&str, String> = Cache::builder()
    ///     .max_capacity(1 << 20)
    ///     .weigher(|_, page: &String| page.len().try_into().unwrap_or(u32::MAX))
    ///     .build();
    /// pages.insert("home", "welcome".to_string());
    /// assert_eq!((pages.len(), pages.weighted_size()), (1, 7));
    /// ```
    pub fn weigher(
        mut self,
        weigher: impl FnMut(&K, &V) -> u32 + Send + 'static,
    ) -> CacheBuilder<K, V> {
        self.limits.is_weighed = true;
        self.weigher = Some(Box::new(weigher));
        self
    }

    /// Builds the cache, and starts its clock. Keys are hashed by std's [`RandomState`].
    ///
    /// # Panics
    ///
    /// If [`try_build`](Self::try_build) returns an error.
    pub fn build(self) -> Cache<K, V> {
        self.build_with_hasher(RandomState::new())
    }

    /// Builds the cache with this state for hashing keys, and starts its clock.
    ///
    /// # Panics
    ///
    /// If [`try_build`](Self::try_build) returns an error.
    pub fn build_with_hasher<S: BuildHasher>(self, hasher: S) -> Cache<K, V, S> {
        match self.try_build_with_hasher(hasher) {
            Ok(cache) => cache,
            Err(error) => panic!("the cache can't be built: {error}"),
        }
    }

    /// Builds the cache, and starts its clock. Keys are hashed by std's [`RandomState`].
    ///
    /// # Errors
    ///
    /// Those of [`ByteBuilder::build`](crate::ByteBuilder::build).
    pub fn try_build(self) -> Result<Cache<K, V>, BuildError> {
        self.try_build_with_hasher(RandomState::new())
    }

    /// Builds the cache with this state for hashing keys, and starts its clock.
    ///
    /// # Errors
    ///
    /// Those of [`try_build`](Self::try_build).
    pub fn try_build_with_hasher<S: BuildHasher>(
        self,
        hasher: S,
    ) -> Result<Cache<K, V, S>, BuildError> {
        Cache::open(&self.limits, hasher, self.listener, self.weigher)
    }
}

impl<K, V> Default for CacheBuilder<K, V> {
    fn default() -> CacheBuilder<K, V> {
        CacheBuilder {
            limits: Limits::default(),
            listener: None,
            weigher: None,
        }
    }
}

impl<K, V> fmt::Debug for CacheBuilder<K, V> {
    fn fmt(&self, f: &mut fmt::Formatter<'_>) -> fmt::Result {
        self.limits
            .fields(&mut f.debug_struct("CacheBuilder"))
            .field("has_listener", &self.listener.is_some())
            .field("has_weigher", &self.weigher.is_some())
            .finish()
    }
}
