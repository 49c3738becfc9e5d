//! The builder of typed caches that threads share.

use super::cache::Cache;
use super::segments_of;
use crate::clock::{ManualClock, Source};
use crate::error::BuildError;
use crate::handle::Cause;
use crate::limits::{Limits, Shares};
use crate::typed::{limit_setters, SharedListener, SharedWeigher};
use std::collections::hash_map::RandomState;
use std::fmt;
use std::hash::{BuildHasher, Hash};
use std::time::Duration;

/// The least capacity of a segment, unless their number is set.
const LEAST_SEGMENT: u64 = 100;

/// The least capacity of a segment of weighed entries, unless their number is set.
const LEAST_WEIGHED_SEGMENT: u64 = 1 << 20;

/// Builds a [`Cache`] that threads share. A cache has only the limits that are set. Its segments
/// have their parts of them, and each has a window of its own.
///
/// ```
/// use mini_moka_proved::sync::Cache;
/// use std::time::Duration;
///
/// let cache: Cache<String, u32> = Cache::builder()
///     .max_capacity(10_000)
///     .adaptive()
///     .time_to_live(Duration::from_secs(30 * 60))
///     .segments(4)
///     .build();
/// assert_eq!(cache.segments(), 4);
/// ```
#[must_use]
pub struct CacheBuilder<K, V> {
    limits: Limits,
    segments: Option<usize>,
    listener: Option<SharedListener<K, V>>,
    weigher: Option<SharedWeigher<K, V>>,
}

impl<K: Hash + Eq, V> CacheBuilder<K, V> {
    /// Creates a builder of caches of at most `max_capacity` entries.
    pub fn new(max_capacity: u64) -> CacheBuilder<K, V> {
        CacheBuilder::default().max_capacity(max_capacity)
    }

    limit_setters!();

    /// Sets the number of segments, clamped to the range from 1 to 65,536.
    ///
    /// By default a cache has 16 segments, or fewer, so that each has a capacity of at least 100
    /// entries, or with a weigher of 1,048,576. A smaller cache has one segment.
    pub fn segments(mut self, segments: usize) -> CacheBuilder<K, V> {
        self.segments = Some(segments);
        self
    }

    /// Sets a listener, as [`unsync::CacheBuilder::eviction_listener`] does.
    ///
    /// It runs in the thread whose call made the entry leave, while no lock is held, so it may call
    /// the cache.
    ///
    /// [`unsync::CacheBuilder::eviction_listener`]: crate::unsync::CacheBuilder::eviction_listener
    ///
    /// ```
    /// use mini_moka_proved::{sync::Cache, Cause};
    /// use std::sync::{Arc, Mutex};
    ///
    /// let left = Arc::new(Mutex::new(Vec::new()));
    /// let cache = Cache::builder()
    ///     .eviction_listener({
    ///         let left = Arc::clone(&left);
    ///         move |key, value, cause| left.lock().unwrap().push((key, value, cause))
    ///     })
    ///     .build();
    /// cache.insert("alice", 7);
    /// cache.invalidate("alice");
    /// assert_eq!(*left.lock().unwrap(), [("alice", 7, Cause::Explicit)]);
    /// ```
    pub fn eviction_listener(
        mut self,
        listener: impl Fn(K, V, Cause) + Send + Sync + 'static,
    ) -> CacheBuilder<K, V> {
        self.listener = Some(Box::new(listener));
        self
    }

    /// Sets a weigher, as [`unsync::CacheBuilder::weigher`] does. A new entry that weighs more than its
    /// segment's part of the capacity is rejected.
    ///
    /// It runs while no lock is held, except for [`Cache::modify`] and for a value that
    /// [`Cache::get_with`] made: then it must not call the cache, which would wait for itself.
    ///
    /// [`unsync::CacheBuilder::weigher`]: crate::unsync::CacheBuilder::weigher
    ///
    /// ```
    /// use mini_moka_proved::sync::Cache;
    ///
    /// let pages: Cache<&str, String> = Cache::builder()
    ///     .max_capacity(1 << 20)
    ///     .weigher(|_, page: &String| page.len().try_into().unwrap_or(u32::MAX))
    ///     .build();
    /// pages.insert("home", "welcome".to_string());
    /// assert_eq!((pages.len(), pages.weighted_size()), (1, 7));
    /// ```
    pub fn weigher(
        mut self,
        weigher: impl Fn(&K, &V) -> u32 + Send + Sync + 'static,
    ) -> CacheBuilder<K, V> {
        self.limits.is_weighed = true;
        self.weigher = Some(Box::new(weigher));
        self
    }

    /// Builds the cache, and starts its clock. Keys are hashed by std's [`RandomState`].
    ///
    /// # Panics
    ///
    /// If [`try_build`](Self::try_build) returns an error.
    pub fn build(self) -> Cache<K, V> {
        self.build_with_hasher(RandomState::new())
    }

    /// Builds the cache with this state for hashing keys, and starts its clock.
    ///
    /// # Panics
    ///
    /// If [`try_build`](Self::try_build) returns an error.
    pub fn build_with_hasher<S: BuildHasher>(self, hasher: S) -> Cache<K, V, S> {
        match self.try_build_with_hasher(hasher) {
            Ok(cache) => cache,
            Err(error) => panic!("the cache can't be built: {error}"),
        }
    }

    /// Builds the cache, and starts its clock. Keys are hashed by std's [`RandomState`].
    ///
    /// # Errors
    ///
    /// Those of [`ByteBuilder::build`](crate::ByteBuilder::build).
    pub fn try_build(self) -> Result<Cache<K, V>, BuildError> {
        self.try_build_with_hasher(RandomState::new())
    }

    /// Builds the cache with this state for hashing keys, and starts its clock.
    ///
    /// # Errors
    ///
    /// Those of [`try_build`](Self::try_build).
    pub fn try_build_with_hasher<S: BuildHasher>(
        self,
        hasher: S,
    ) -> Result<Cache<K, V, S>, BuildError> {
        let least = match self.weigher {
            Some(_) => LEAST_WEIGHED_SEGMENT,
            None => LEAST_SEGMENT,
        };
        let count = segments_of(self.segments, self.limits.max_capacity, least);
        Cache::open(&self.limits, count, hasher, self.listener, self.weigher)
    }
}

impl<K, V> Default for CacheBuilder<K, V> {
    fn default() -> CacheBuilder<K, V> {
        CacheBuilder {
            limits: Limits::default(),
            segments: None,
            listener: None,
            weigher: None,
        }
    }
}

impl<K, V> fmt::Debug for CacheBuilder<K, V> {
    fn fmt(&self, f: &mut fmt::Formatter<'_>) -> fmt::Result {
        self.limits
            .fields(&mut f.debug_struct("CacheBuilder"))
            .field("segments", &self.segments)
            .field("has_listener", &self.listener.is_some())
            .field("has_weigher", &self.weigher.is_some())
            .finish()
    }
}
