//! The caches that play a trace.

mod belady;
mod library;
mod lru;

use crate::memory::OutOfMemory;
use crate::trace::Trace;
use std::ops::Range;

/// A cache and its settings.
#[derive(Clone, Copy, Debug, PartialEq, Eq)]
pub enum Setting {
    Default,
    /// The cache with this `window_share`, in percent.
    Window(u8),
    /// The cache with this `protected_share`, in percent.
    Protected(u8),
    Adaptive,
    Segments,
    Lru,
    Belady,
}

impl Setting {
    /// The settings that are played if none are named, in the order of tables.
    pub const USUAL: [Setting; 6] = [
        Setting::Default,
        Setting::Protected(80),
        Setting::Adaptive,
        Setting::Segments,
        Setting::Lru,
        Setting::Belady,
    ];

    /// Returns the name in arguments, tables and files.
    pub fn name(self) -> String {
        match self {
            Setting::Default => "default".to_owned(),
            Setting::Window(percent) => format!("window{percent}"),
            Setting::Protected(percent) => format!("protected{percent}"),
            Setting::Adaptive => "adaptive".to_owned(),
            Setting::Segments => "segments".to_owned(),
            Setting::Lru => "lru".to_owned(),
            Setting::Belady => "belady".to_owned(),
        }
    }

    /// Returns the setting of this name, if there is one.
    pub fn named(name: &str) -> Option<Setting> {
        let with_share = |start, setting: fn(u8) -> Setting| {
            let percent = name.strip_prefix(start)?.parse().ok()?;
            (percent <= 100).then(|| setting(percent))
        };
        let usual = || {
            let mut usual = Setting::USUAL.into_iter();
            usual.find(|setting| setting.name() == name)
        };
        let found = with_share("window", Setting::Window)
            .or_else(|| with_share("protected", Setting::Protected))
            .or_else(usual);
        // A number may be written in several ways, of which one is the name.
        found.filter(|setting| setting.name() == name)
    }

    /// Returns `true` if the library plays it.
    pub fn is_library(self) -> bool {
        !matches!(self, Setting::Lru | Setting::Belady)
    }
}

/// The rules of a play: what counts against the capacity, and how long an entry lives.
#[derive(Clone, Copy, Debug)]
pub struct Rules {
    /// The capacity, in entries, or in bytes if entries are weighed.
    pub capacity: u64,
    pub is_weighed: bool,
    /// Nanoseconds from an entry's insert to its expiry.
    pub time_to_live: Option<u64>,
}

impl Rules {
    /// Returns what an entry of this request counts against the capacity.
    pub fn weight(&self, trace: &Trace, request: usize) -> u64 {
        if self.is_weighed {
            trace.bytes(request)
        } else {
            1
        }
    }

    /// Returns `true` if an entry that was inserted at one time is expired at another.
    pub fn is_expired(&self, inserted: u64, now: u64) -> bool {
        self.time_to_live.is_some_and(|life| now - inserted >= life)
    }
}

/// What a part of a trace gave.
#[derive(Clone, Copy, Debug, Default, PartialEq, Eq)]
pub struct Tally {
    pub hits: u64,
    pub hit_bytes: u64,
}

/// What left a cache so far. A cache doesn't tell what is `None`.
#[derive(Clone, Copy, Debug, Default, PartialEq, Eq)]
pub struct Counts {
    pub evictions: Option<u64>,
    pub rejections: Option<u64>,
    pub expirations: Option<u64>,
}

/// The reason that a play has no result.
#[derive(Clone, Copy, Debug, PartialEq, Eq)]
pub enum PlayError {
    OutOfMemory,
    /// The library's own count of hits differs from its answers.
    Disagreement {
        counted: u64,
        answered: u64,
    },
}

impl From<OutOfMemory> for PlayError {
    fn from(_: OutOfMemory) -> PlayError {
        PlayError::OutOfMemory
    }
}

/// A cache that plays a trace, part by part.
pub trait Policy {
    /// Gets the key of each request, and inserts it if it isn't found.
    fn play(&mut self, trace: &Trace, part: Range<usize>) -> Result<Tally, PlayError>;

    /// Returns the weight that the cache's window may have now, if it has a window.
    fn window(&self) -> Option<u64>;

    /// Returns what left the cache so far. `hits` is what the parts gave.
    fn counts(&self, hits: u64) -> Result<Counts, PlayError>;
}

/// Opens an empty cache. `zeros` has the bytes of the longest value.
pub fn open<'a>(
    setting: Setting,
    rules: Rules,
    trace: &Trace,
    zeros: &'a [u8],
) -> Result<Box<dyn Policy + 'a>, PlayError> {
    match setting {
        Setting::Lru => Ok(Box::new(lru::Lru::open(rules, trace)?)),
        Setting::Belady => Ok(Box::new(belady::Belady::open(rules, trace)?)),
        library => library::open(library, rules, trace, zeros),
    }
}
