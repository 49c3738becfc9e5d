//! The builder of caches of numbers.

#[cfg(doc)]
use crate::byte_builder::ByteBuilder;
use crate::clock::{ManualClock, Source};
use crate::error::BuildError;
use crate::limits::{Limits, Shares};
use crate::numbers::NumberCache;
use std::fmt;
use std::time::Duration;

/// Builds a [`NumberCache`]. A cache has only the limits that are set.
#[derive(Clone, Default)]
#[must_use]
pub struct NumberBuilder {
    limits: Limits,
}

impl NumberBuilder {
    /// Sets the maximum number of entries, or with [`weigh_values`](Self::weigh_values) the maximum
    /// weight of all.
    pub fn max_capacity(mut self, max_capacity: u64) -> NumberBuilder {
        self.limits.max_capacity = Some(max_capacity);
        self
    }

    /// Sets the time that an entry lives after its last write. It is expired from the end of that
    /// time on.
    pub fn time_to_live(mut self, duration: Duration) -> NumberBuilder {
        self.limits.time_to_live = Some(duration);
        self
    }

    /// Sets the time that an entry lives after its last read or write.
    pub fn time_to_idle(mut self, duration: Duration) -> NumberBuilder {
        self.limits.time_to_idle = Some(duration);
        self
    }

    /// Reserves memory for `entries` entries from the start, as [`ByteBuilder::initial_capacity`] does.
    /// Up to that number no insert is refused memory.
    pub fn initial_capacity(mut self, entries: usize) -> NumberBuilder {
        self.limits.initial_capacity = entries;
        self
    }

    /// Queues up to `entries` removed entries, for [`NumberCache::removed`] to drain. By default
    /// none is queued.
    ///
    /// The memory for them is reserved when the cache is built, so no call is refused memory for
    /// them. If the queue is full, entries that leave are dropped and counted:
    /// [`Statistics::lost`].
    ///
    /// [`Statistics::lost`]: crate::Statistics::lost
    pub fn removed_room(mut self, entries: usize) -> NumberBuilder {
        self.limits.removed_room = entries;
        self
    }

    /// Makes the cache read a coarse clock, as [`ByteBuilder::coarse_clock`] does.
    pub fn coarse_clock(mut self) -> NumberBuilder {
        self.limits.clock = Source::Coarse;
        self
    }

    /// Makes the cache read a clock that the program sets, as [`ByteBuilder::manual_clock`] does.
    pub fn manual_clock(mut self, clock: &ManualClock) -> NumberBuilder {
        self.limits.clock = Source::Manual(clock.clone());
        self
    }

    /// Sets the window's share of the capacity in percent, as [`ByteBuilder::window_share`] does.
    pub fn window_share(mut self, percent: u8) -> NumberBuilder {
        self.limits.shares.window = percent;
        self
    }

    /// Sets the share of the capacity outside of the window that is for entries used there, in
    /// percent, as [`ByteBuilder::protected_share`] does.
    pub fn protected_share(mut self, percent: u8) -> NumberBuilder {
        self.limits.shares.protected = percent;
        self
    }

    /// Makes the window's share follow the calls, as [`ByteBuilder::adaptive`] does.
    ///
    /// ```
    /// use mini_moka_proved::NumberCache;
    ///
    /// let cache = NumberCache::builder().max_capacity(1000).adaptive().build()?;
    /// assert_eq!(cache.window_capacity(), 10);
    /// # Ok::<(), mini_moka_proved::BuildError>(())
    /// ```
    pub fn adaptive(mut self) -> NumberBuilder {
        self.limits.shares = Shares::ADAPTIVE;
        self
    }

    /// Makes an entry weigh the upper 32 bits of its value, in place of 1. So a value has a weight
    /// and 32 bits for the program.
    ///
    /// An update with a heavier value may leave the cache above its capacity, as
    /// [`ByteBuilder::weigh_bytes`] says.
    ///
    /// ```
    /// use mini_moka_proved::NumberCache;
    ///
    /// let mut cache = NumberCache::builder().max_capacity(1000).weigh_values().build()?;
    /// cache.insert(7, (600 << 32) | 1).unwrap();
    /// assert_eq!((cache.len(), cache.weighted_size()), (1, 600));
    /// # Ok::<(), mini_moka_proved::BuildError>(())
    /// ```
    pub fn weigh_values(mut self) -> NumberBuilder {
        self.limits.is_weighed = true;
        self
    }

    /// Builds the cache, and starts its clock.
    ///
    /// # Errors
    ///
    /// Those of [`ByteBuilder::build`].
    pub fn build(self) -> Result<NumberCache, BuildError> {
        let settings = self.limits.settings()?;
        Ok(NumberCache::open(&settings, self.limits.clock())?)
    }
}

impl fmt::Debug for NumberBuilder {
    fn fmt(&self, f: &mut fmt::Formatter<'_>) -> fmt::Result {
        self.limits
            .fields(&mut f.debug_struct("NumberBuilder"))
            .field("weigh_values", &self.limits.is_weighed)
            .finish()
    }
}
