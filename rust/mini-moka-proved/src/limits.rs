//! The settings that builders of caches of bytes and of numbers share.

use crate::clock::{Clock, Source};
use crate::error::BuildError;
use crate::handle::{NumberSettings, UNLIMITED};
use std::fmt;
use std::time::Duration;

/// The settings of both builders.
#[derive(Clone, Default)]
pub(crate) struct Limits {
    pub(crate) max_capacity: Option<u64>,
    pub(crate) time_to_live: Option<Duration>,
    pub(crate) time_to_idle: Option<Duration>,
    pub(crate) initial_capacity: usize,
    pub(crate) removed_room: usize,
    /// `true` if an entry of numbers weighs the upper half of its value.
    pub(crate) is_weighed: bool,
    pub(crate) shares: Shares,
    pub(crate) clock: Source,
}

impl Limits {
    /// Converts the settings to the library's.
    pub(crate) fn settings(&self) -> Result<NumberSettings, BuildError> {
        let time_to_live = limit(self.time_to_live)?;
        let time_to_idle = limit(self.time_to_idle)?;
        let shares = self.shares.checked()?;
        Ok(NumberSettings {
            capacity: self.max_capacity.unwrap_or(UNLIMITED),
            time_to_live,
            time_to_idle,
            initial_capacity: self.initial_capacity,
            removed_room: self.removed_room,
            window_share: shares.window,
            protected_share: shares.protected,
            is_adaptive: shares.is_adaptive,
            is_weighed: self.is_weighed,
        })
    }

    /// Starts a clock for a new cache. Without a duration it stands still, unless the program sets
    /// it, since no result depends on moments.
    pub(crate) fn clock(&self) -> Clock {
        self.clock.start(self.has_duration())
    }

    /// Returns `true` if entries expire.
    pub(crate) fn has_duration(&self) -> bool {
        self.time_to_live.is_some() || self.time_to_idle.is_some()
    }

    /// Returns the limits of a segment. The capacities of all segments add up to the whole.
    pub(crate) fn part(&self, count: u64, at: u64) -> Limits {
        let part = |whole: u64| whole / count + u64::from(at < whole % count);
        let room = self.removed_room as u64;
        Limits {
            max_capacity: self.max_capacity.map(part),
            // A part of a `usize` fits in a `usize`.
            initial_capacity: part(self.initial_capacity as u64) as usize,
            // Rounded up, so that each segment has a queue if the cache has one.
            removed_room: (room / count + u64::from(room % count > 0)) as usize,
            ..self.clone()
        }
    }

    /// Adds the settings to the debug output of a builder.
    pub(crate) fn fields<'f, 'a, 'b>(
        &self,
        shown: &'f mut fmt::DebugStruct<'a, 'b>,
    ) -> &'f mut fmt::DebugStruct<'a, 'b> {
        shown
            .field("max_capacity", &self.max_capacity)
            .field("time_to_live", &self.time_to_live)
            .field("time_to_idle", &self.time_to_idle)
            .field("initial_capacity", &self.initial_capacity)
            .field("removed_room", &self.removed_room)
            .field("window_share", &self.shares.window)
            .field("protected_share", &self.shares.protected)
            .field("adaptive", &self.shares.is_adaptive)
            .field("clock", &self.clock)
    }
}

/// The shares of a cache's parts, in percent.
#[derive(Clone, Copy)]
pub(crate) struct Shares {
    pub(crate) window: u8,
    pub(crate) protected: u8,
    pub(crate) is_adaptive: bool,
}

impl Shares {
    /// The shares with which an adaptive cache begins.
    pub(crate) const ADAPTIVE: Shares = Shares {
        window: 1,
        protected: 80,
        is_adaptive: true,
    };

    fn checked(self) -> Result<Shares, BuildError> {
        if self.window > 100 || self.protected > 100 {
            return Err(BuildError::ShareTooLarge);
        }
        Ok(self)
    }
}

impl Default for Shares {
    fn default() -> Shares {
        Shares {
            window: 1,
            protected: 0,
            is_adaptive: false,
        }
    }
}

/// Converts a duration to the library's nanoseconds.
fn limit(duration: Option<Duration>) -> Result<u64, BuildError> {
    let duration = match duration {
        Some(set) => set,
        None => return Ok(UNLIMITED),
    };
    match u64::try_from(duration.as_nanos()) {
        Ok(0) => Err(BuildError::ZeroDuration),
        Ok(nanoseconds) if nanoseconds != UNLIMITED => Ok(nanoseconds),
        _ => Err(BuildError::DurationTooLong),
    }
}
