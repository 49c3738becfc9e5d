//! The builder of caches of bytes.

use crate::bytes::ByteCache;
use crate::clock::{Clock, ManualClock, Source};
use crate::error::BuildError;
use crate::handle::Settings;
use crate::limits::{Limits, Shares};
use std::collections::hash_map::RandomState;
use std::fmt;
use std::hash::{BuildHasher, Hasher};
use std::time::Duration;

/// Builds a [`ByteCache`]. A cache has only the limits that are set.
///
/// ```
/// use mini_moka_proved::ByteCache;
/// use std::time::Duration;
///
/// let cache = ByteCache::builder()
///     .max_capacity(10_000)
///     .time_to_live(Duration::from_secs(30 * 60))
///     .build()?;
/// assert!(cache.is_empty());
/// # Ok::<(), mini_moka_proved::BuildError>(())
/// ```
#[derive(Clone, Default)]
#[must_use]
pub struct ByteBuilder {
    limits: Limits,
    weighs_bytes: bool,
    seed: Option<[u8; 16]>,
}

impl ByteBuilder {
    /// Sets the maximum number of entries, or with [`weigh_bytes`](Self::weigh_bytes) of bytes.
    /// With 0 the cache keeps nothing, or of weighed entries only one whose key and value are empty.
    pub fn max_capacity(mut self, max_capacity: u64) -> ByteBuilder {
        self.limits.max_capacity = Some(max_capacity);
        self
    }

    /// Makes the capacity count the bytes of keys and values instead of entries.
    ///
    /// An entry weighs at most `u32::MAX`. An update with a longer value may leave the cache above
    /// its capacity. Then each insert, get, `contains_key`, `remove` and `invalidate` first evicts
    /// up to 100 entries, in the order of [`ByteCache::iter`], until the others fit. An update that is
    /// heavier than the whole capacity is stored, so these calls evict most entries and the update:
    /// remove its key instead.
    pub fn weigh_bytes(mut self) -> ByteBuilder {
        self.weighs_bytes = true;
        self
    }

    /// Sets the time that an entry lives after its last write. It is expired from the end of that
    /// time on.
    pub fn time_to_live(mut self, duration: Duration) -> ByteBuilder {
        self.limits.time_to_live = Some(duration);
        self
    }

    /// Sets the time that an entry lives after its last read or write.
    pub fn time_to_idle(mut self, duration: Duration) -> ByteBuilder {
        self.limits.time_to_idle = Some(duration);
        self
    }

    /// Reserves memory for `entries` entries from the start. Up to that number an insert is refused
    /// memory only for its value, or for a key of more than 24 bytes.
    ///
    /// An insert that finds the cache's memory full doubles it, which takes time linear in the
    /// number of entries. The memory never doubles if the cache never has more than `entries`
    /// entries, also if an insert finds that many and evicts one. From half of a capacity in
    /// entries on, the counters of popularity are allocated at the start too.
    pub fn initial_capacity(mut self, entries: usize) -> ByteBuilder {
        self.limits.initial_capacity = entries;
        self
    }

    /// Queues up to `entries` removed entries, for [`ByteCache::removed`] to drain. By default none is
    /// queued.
    ///
    /// The memory for them is reserved when the cache is built, so no call is refused memory for
    /// them. If the queue is full, entries that leave are dropped and counted:
    /// [`Statistics::lost`].
    ///
    /// [`Statistics::lost`]: crate::Statistics::lost
    pub fn removed_room(mut self, entries: usize) -> ByteBuilder {
        self.limits.removed_room = entries;
        self
    }

    /// Sets the window's share of the capacity, in percent. It is 1 by default, and with 0 there is
    /// no window.
    ///
    /// New entries begin in the window, which evicts by recency alone: a larger one has more hits
    /// where keys return soon after they were inserted, and fewer where some keys are always used
    /// more than others. [`adaptive`](Self::adaptive) finds the share. The window's part of the
    /// capacity is rounded down, so a cache of fewer than 100 entries has none by default.
    ///
    /// ```
    /// use mini_moka_proved::ByteCache;
    ///
    /// let cache = ByteCache::builder().max_capacity(1000).window_share(20).build()?;
    /// assert_eq!(cache.window_capacity(), 200);
    /// # Ok::<(), mini_moka_proved::BuildError>(())
    /// ```
    pub fn window_share(mut self, percent: u8) -> ByteBuilder {
        self.limits.shares.window = percent;
        self
    }

    /// Sets the share of the capacity outside of the window, in percent, that is for entries used
    /// there. It is 0 by default.
    ///
    /// An entry that left the window is protected once it is used again. Entries that aren't leave
    /// first. A share of 80 has more hits where some keys are always used more than others, and
    /// fewer where the keys that are used change.
    pub fn protected_share(mut self, percent: u8) -> ByteBuilder {
        self.limits.shares.protected = percent;
        self
    }

    /// Makes the window's share follow the calls, and sets the shares with which that begins: 1
    /// percent for the window, and 80 percent of the rest for protected entries. This is the best
    /// choice if nothing is known about the keys.
    ///
    /// The window grows when keys return that it gave up, and shrinks when keys return that were
    /// evicted from outside of it. Its share never falls below the one at which it begins, and grows
    /// to 80 percent at most. [`ByteCache::window_capacity`] is what it has now. Call `window_share` or
    /// `protected_share` after this to begin elsewhere. Without a capacity or a window the cache
    /// doesn't adapt.
    ///
    /// A hit costs what it does with `protected_share(80)`. An insert of a new key also looks it up
    /// in two small tables, which take at most 1 byte for each entry that fits, or 64 bytes, and are
    /// allocated once the cache is half full. If memory for them is refused, the cache never adapts,
    /// and no call fails.
    ///
    /// ```
    /// use mini_moka_proved::ByteCache;
    ///
    /// let cache = ByteCache::builder().max_capacity(1000).adaptive().build()?;
    /// assert_eq!(cache.window_capacity(), 10);
    /// # Ok::<(), mini_moka_proved::BuildError>(())
    /// ```
    ///
    /// With [`weigh_bytes`](Self::weigh_bytes) the window grows by an entry's weight, and a small cache
    /// may find fewer entries than with fixed shares. `moka_sim` compares them on your requests.
    pub fn adaptive(mut self) -> ByteBuilder {
        self.limits.shares = Shares::ADAPTIVE;
        self
    }

    /// Sets the key of the hash function.
    ///
    /// By default each cache has a random one, made by std's
    /// [`RandomState`](std::collections::hash_map::RandomState). If it is known, cache keys can be
    /// chosen to have the same hash, which makes the cache slow. A fixed one makes runs repeatable.
    pub fn seed(mut self, seed: [u8; 16]) -> ByteBuilder {
        self.seed = Some(seed);
        self
    }

    /// Makes the cache read a coarse clock, which costs less than a precise one.
    ///
    /// With a time to live or to idle each call reads the clock, which nearly doubles the call's
    /// time. The coarse clock is that of the kernel's timer, and lags by at most one tick of it, 1
    /// to 10 ms, so an entry may live that much longer. It is used on 64-bit Linux; elsewhere the
    /// cache reads a precise clock.
    ///
    /// ```
    /// use mini_moka_proved::ByteCache;
    /// use std::time::Duration;
    ///
    /// let mut cache = ByteCache::builder()
    ///     .time_to_live(Duration::from_secs(60))
    ///     .coarse_clock()
    ///     .build()?;
    /// cache.insert("token", "alice")?;
    /// assert!(cache.contains_key("token"));
    /// # Ok::<(), Box<dyn std::error::Error>>(())
    /// ```
    pub fn coarse_clock(mut self) -> ByteBuilder {
        self.limits.clock = Source::Coarse;
        self
    }

    /// Makes the cache read a clock that the program sets, for tests and simulators. The last call
    /// of this one and [`coarse_clock`](Self::coarse_clock) holds.
    ///
    /// ```
    /// use mini_moka_proved::{ByteCache, ManualClock};
    /// use std::time::Duration;
    ///
    /// let clock = ManualClock::new();
    /// let mut cache = ByteCache::builder()
    ///     .time_to_live(Duration::from_secs(60))
    ///     .manual_clock(&clock)
    ///     .build()?;
    /// cache.insert("token", "alice")?;
    /// clock.advance(Duration::from_secs(59));
    /// assert!(cache.contains_key("token"));
    /// clock.advance(Duration::from_secs(1));
    /// assert!(!cache.contains_key("token"));
    /// # Ok::<(), Box<dyn std::error::Error>>(())
    /// ```
    pub fn manual_clock(mut self, clock: &ManualClock) -> ByteBuilder {
        self.limits.clock = Source::Manual(clock.clone());
        self
    }

    /// Builds the cache, and starts its clock.
    ///
    /// # Errors
    ///
    /// [`BuildError::ZeroDuration`] if a duration is 0, and [`BuildError::DurationTooLong`] if one
    /// is 2^64 - 1 nanoseconds or more. [`BuildError::ShareTooLarge`] if a share is above 100.
    /// [`BuildError::OutOfMemory`] if memory is refused, or if the initial capacity is
    /// 2,000,000,000 or more. A cache has at most 2,000,000,000 entries.
    pub fn build(self) -> Result<ByteCache, BuildError> {
        self.build_with(self.clock())
    }

    /// Builds the cache with this clock.
    pub(crate) fn build_with(&self, clock: Clock) -> Result<ByteCache, BuildError> {
        let limits = self.limits.settings()?;
        let settings = Settings {
            capacity: limits.capacity,
            time_to_live: limits.time_to_live,
            time_to_idle: limits.time_to_idle,
            initial_capacity: limits.initial_capacity,
            seed: self.seed.map_or_else(random_words, words),
            is_weighed: self.weighs_bytes,
            removed_room: limits.removed_room,
            window_share: limits.window_share,
            protected_share: limits.protected_share,
            is_adaptive: limits.is_adaptive,
        };
        Ok(ByteCache::open(&settings, clock)?)
    }

    /// Starts a clock for the cache.
    pub(crate) fn clock(&self) -> Clock {
        self.limits.clock()
    }

    /// Returns the seed of the hash that picks segments. It follows from the cache's seed if one is
    /// set.
    pub(crate) fn segment_seed(&self) -> u64 {
        self.seed.map_or_else(random_word, |seed| {
            let [low, high] = words(seed);
            low.wrapping_mul(0x9E37_79B9_7F4A_7C15) ^ high
        })
    }

    /// Returns the maximum capacity, if one is set.
    pub(crate) fn capacity(&self) -> Option<u64> {
        self.limits.max_capacity
    }

    /// Returns the least capacity of a segment: 100 entries, or 1 MiB.
    pub(crate) fn least_segment(&self) -> u64 {
        if self.weighs_bytes {
            1 << 20
        } else {
            100
        }
    }

    /// Returns the builder of a segment. The capacities of all segments add up to the whole.
    pub(crate) fn part(&self, count: u64, at: u64) -> ByteBuilder {
        let mut builder = self.clone();
        builder.limits = self.limits.part(count, at);
        builder
    }
}

impl fmt::Debug for ByteBuilder {
    /// Shows all but the seed, which may be secret.
    fn fmt(&self, f: &mut fmt::Formatter<'_>) -> fmt::Result {
        self.limits
            .fields(&mut f.debug_struct("ByteBuilder"))
            .field("weigh_bytes", &self.weighs_bytes)
            .finish_non_exhaustive()
    }
}

/// Converts a seed to the library's words.
fn words(seed: [u8; 16]) -> [u64; 2] {
    let seed = u128::from_le_bytes(seed);
    [seed as u64, (seed >> 64) as u64]
}

/// Returns a random seed.
fn random_words() -> [u64; 2] {
    [random_word(), random_word()]
}

/// Returns a random word: the hash of no bytes by a new `RandomState`, each of which has its own
/// keys.
fn random_word() -> u64 {
    RandomState::new().build_hasher().finish()
}
