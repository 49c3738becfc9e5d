//! The clock of a cache.

use std::fmt;
use std::sync::atomic::{AtomicU64, Ordering};
use std::sync::Arc;
use std::time::{Duration, Instant};

/// A clock that the program sets, for tests and simulators.
///
/// Builders take it: [`ByteBuilder::manual_clock`](crate::ByteBuilder::manual_clock). A clone is another
/// handle on the same clock, which any number of caches and threads may share. Its moments are in
/// nanoseconds, at most 2^64 - 1, which is 584 years; a later one counts as that.
///
/// ```
/// use mini_moka_proved::ManualClock;
/// use std::time::Duration;
///
/// let second = Duration::from_secs(1);
/// let clock = ManualClock::new();
/// assert_eq!(clock.now(), Duration::ZERO);
/// clock.advance(second);
/// clock.clone().advance(second);
/// assert_eq!(clock.now(), 2 * second);
/// clock.set(second);
/// assert_eq!(clock.now(), second);
/// ```
#[derive(Clone, Default)]
pub struct ManualClock {
    nanoseconds: Arc<AtomicU64>,
}

impl ManualClock {
    /// Creates a clock at moment 0. It aborts if memory is refused.
    pub fn new() -> ManualClock {
        ManualClock::default()
    }

    /// Returns the current moment.
    pub fn now(&self) -> Duration {
        Duration::from_nanos(self.nanoseconds.load(Ordering::Relaxed))
    }

    /// Sets the current moment, which may be before the last one.
    pub fn set(&self, moment: Duration) {
        self.nanoseconds
            .store(nanoseconds(moment), Ordering::Relaxed);
    }

    /// Moves the clock forward. Of threads that do so at the same time, each moves it.
    pub fn advance(&self, duration: Duration) {
        let further = nanoseconds(duration);
        let next = |now: u64| Some(now.saturating_add(further));
        // `next` always returns a moment, so the update is done.
        let _ = self
            .nanoseconds
            .fetch_update(Ordering::Relaxed, Ordering::Relaxed, next);
    }
}

impl fmt::Debug for ManualClock {
    fn fmt(&self, f: &mut fmt::Formatter<'_>) -> fmt::Result {
        f.debug_tuple("ManualClock").field(&self.now()).finish()
    }
}

/// The clock that a builder gives to a cache.
#[derive(Clone, Debug, Default)]
pub(crate) enum Source {
    #[default]
    Precise,
    Coarse,
    Manual(ManualClock),
}

impl Source {
    /// Starts a clock. If no result depends on moments, it stands still, unless the program sets
    /// it.
    pub(crate) fn start(&self, is_needed: bool) -> Clock {
        match self {
            Source::Manual(clock) => Clock::Manual(clock.clone()),
            _ if !is_needed => Clock::standing(),
            Source::Coarse => Clock::coarse(),
            Source::Precise => Clock::running(),
        }
    }
}

/// A clock that counts from its start, one that stands at zero, or one that the program sets.
#[derive(Clone)]
pub(crate) enum Clock {
    Standing,
    Running(Instant),
    // The reading of the system's coarse clock at the start.
    Coarse(Duration),
    Manual(ManualClock),
}

impl Clock {
    /// Starts a precise clock.
    fn running() -> Clock {
        Clock::Running(Instant::now())
    }

    /// Starts a clock that costs less to read, and lags by some milliseconds. It is precise if the
    /// system has no coarse clock.
    fn coarse() -> Clock {
        coarse::now().map_or_else(Clock::running, Clock::Coarse)
    }

    /// Returns a clock that always reads 0, for a cache without durations. Reading it costs
    /// nothing.
    pub(crate) fn standing() -> Clock {
        Clock::Standing
    }

    /// Returns the time since the clock's start.
    pub(crate) fn elapsed(&self) -> Duration {
        match self {
            Clock::Standing => Duration::ZERO,
            Clock::Running(start) => start.elapsed(),
            Clock::Coarse(start) => coarse::now().unwrap_or(*start).saturating_sub(*start),
            Clock::Manual(clock) => clock.now(),
        }
    }
}

/// Converts a moment to nanoseconds since the start, at most `u64::MAX`.
pub(crate) fn nanoseconds(moment: Duration) -> u64 {
    u64::try_from(moment.as_nanos()).unwrap_or(u64::MAX)
}

#[cfg(all(target_os = "linux", target_pointer_width = "64"))]
#[allow(unsafe_code)]
mod coarse {
    //! The system's coarse clock.

    use std::os::raw::{c_int, c_long};
    use std::time::Duration;

    /// `CLOCK_MONOTONIC_COARSE` of Linux.
    const MONOTONIC_COARSE: c_int = 6;

    /// The `struct timespec` of 64-bit Linux.
    #[repr(C)]
    struct TimeSpec {
        seconds: c_long,
        nanoseconds: c_long,
    }

    extern "C" {
        fn clock_gettime(clock: c_int, time: *mut TimeSpec) -> c_int;
    }

    /// Reads the clock. Returns `None` if the system has none.
    pub(super) fn now() -> Option<Duration> {
        let mut time = TimeSpec {
            seconds: 0,
            nanoseconds: 0,
        };
        // SAFETY: `time` is a local variable with the layout of the C library's struct.
        let status = unsafe { clock_gettime(MONOTONIC_COARSE, &mut time) };
        if status != 0 {
            return None;
        }
        let seconds = u64::try_from(time.seconds).ok()?;
        Some(Duration::new(
            seconds,
            u32::try_from(time.nanoseconds).ok()?,
        ))
    }
}

#[cfg(not(all(target_os = "linux", target_pointer_width = "64")))]
mod coarse {
    //! Systems without a coarse clock.

    use std::time::Duration;

    pub(super) fn now() -> Option<Duration> {
        None
    }
}
