//! The library's own caches, with its settings.

use super::{Counts, PlayError, Policy, Rules, Setting, Tally};
use crate::keys::Key;
use crate::trace::Trace;
use mini_moka_proved::{sync, BuildError, ByteCache, NumberCache, OutOfMemory, Statistics};
use std::ops::Range;
use std::time::Duration;

/// The key of the hash function, so that a play can be repeated.
const SEED: [u8; 16] = *b"moka_sim repeats";

/// A request as the library gets it.
struct Request<'a> {
    key: Key<'a>,
    value: &'a [u8],
    now: Duration,
}

/// The calls of a cache that a play makes.
trait Calls {
    /// Looks up the key, and returns `true` if it has an unexpired entry.
    fn get(&mut self, request: &Request) -> Result<bool, OutOfMemory>;

    fn insert(&mut self, request: &Request) -> Result<(), OutOfMemory>;

    fn statistics(&self) -> Statistics;

    fn window(&self) -> Option<u64>;
}

/// A cache of the library, and how its entries are weighed.
struct Library<'a, C> {
    cache: C,
    rules: Rules,
    zeros: &'a [u8],
}

/// Opens a cache of the library: one of numbers if keys are numbers and entries aren't weighed, and
/// one of bytes otherwise. Segments are of bytes.
pub fn open<'a>(
    setting: Setting,
    rules: Rules,
    trace: &Trace,
    zeros: &'a [u8],
) -> Result<Box<dyn Policy + 'a>, PlayError> {
    let bytes = || bytes(setting, rules);
    Ok(match setting {
        Setting::Segments => {
            let cache = Segmented {
                cache: sync_cache(rules)?,
                value: Vec::new(),
            };
            Box::new(Library {
                cache,
                rules,
                zeros,
            })
        }
        _ if rules.is_weighed || !trace.keys.are_numbers() => {
            let cache = Bytes {
                cache: bytes()?,
                value: Vec::new(),
            };
            Box::new(Library {
                cache,
                rules,
                zeros,
            })
        }
        _ => Box::new(Library {
            cache: numbers(setting, rules)?,
            rules,
            zeros,
        }),
    })
}

/// Opens a cache of numbers.
fn numbers(setting: Setting, rules: Rules) -> Result<NumberCache, PlayError> {
    let mut builder = NumberCache::builder().max_capacity(rules.capacity);
    if let Some(life) = rules.time_to_live {
        builder = builder.time_to_live(Duration::from_nanos(life));
    }
    let builder = match setting {
        Setting::Window(percent) => builder.window_share(percent),
        Setting::Protected(percent) => builder.protected_share(percent),
        Setting::Adaptive => builder.adaptive(),
        _ => builder,
    };
    Ok(builder.build()?)
}

/// Opens a cache of bytes.
fn bytes(setting: Setting, rules: Rules) -> Result<ByteCache, PlayError> {
    let mut builder = ByteCache::builder().max_capacity(rules.capacity).seed(SEED);
    if rules.is_weighed {
        builder = builder.weigh_bytes();
    }
    if let Some(life) = rules.time_to_live {
        builder = builder.time_to_live(Duration::from_nanos(life));
    }
    let builder = match setting {
        Setting::Window(percent) => builder.window_share(percent),
        Setting::Protected(percent) => builder.protected_share(percent),
        Setting::Adaptive => builder.adaptive(),
        _ => builder,
    };
    Ok(builder.build()?)
}

/// Opens a cache that threads share, with its own number of segments.
fn sync_cache(rules: Rules) -> Result<sync::ByteCache, PlayError> {
    let mut builder = sync::ByteCache::builder()
        .max_capacity(rules.capacity)
        .seed(SEED);
    if rules.is_weighed {
        builder = builder.weigh_bytes();
    }
    if let Some(life) = rules.time_to_live {
        builder = builder.time_to_live(Duration::from_nanos(life));
    }
    Ok(builder.build()?)
}

impl From<BuildError> for PlayError {
    /// Durations and shares are checked before, so memory is the only reason.
    fn from(_: BuildError) -> PlayError {
        PlayError::OutOfMemory
    }
}

impl From<OutOfMemory> for PlayError {
    fn from(_: OutOfMemory) -> PlayError {
        PlayError::OutOfMemory
    }
}

impl<C: Calls> Policy for Library<'_, C> {
    fn play(&mut self, trace: &Trace, part: Range<usize>) -> Result<Tally, PlayError> {
        let mut tally = Tally::default();
        for at in part {
            let key = trace.requests[at];
            let mut request = Request {
                key: trace.keys.get(key),
                value: &[],
                now: Duration::from_nanos(trace.time(at)),
            };
            if self.cache.get(&request)? {
                tally.hits += 1;
                tally.hit_bytes += trace.size(at);
            } else {
                if self.rules.is_weighed {
                    request.value = self.value(trace, at);
                }
                self.cache.insert(&request)?;
            }
        }
        Ok(tally)
    }

    fn window(&self) -> Option<u64> {
        self.cache.window()
    }

    fn counts(&self, hits: u64) -> Result<Counts, PlayError> {
        let counted = self.cache.statistics();
        if counted.hits != hits {
            return Err(PlayError::Disagreement {
                counted: counted.hits,
                answered: hits,
            });
        }
        Ok(Counts {
            evictions: Some(counted.evictions),
            rejections: Some(counted.rejections),
            expirations: Some(counted.expirations),
        })
    }
}

impl<'a, C> Library<'a, C> {
    /// Returns a value with which the entry weighs its size. A heavier one than the capacity, which the
    /// library rejects, is cut to one byte above it.
    fn value(&self, trace: &Trace, request: usize) -> &'a [u8] {
        let key = trace.keys.length(trace.requests[request]) as u64;
        let weight = trace
            .bytes(request)
            .min(self.rules.capacity.saturating_add(1));
        &self.zeros[..weight.saturating_sub(key) as usize]
    }
}

impl Calls for NumberCache {
    fn get(&mut self, request: &Request) -> Result<bool, OutOfMemory> {
        Ok(self.get_at(number(request.key), request.now).is_some())
    }

    fn insert(&mut self, request: &Request) -> Result<(), OutOfMemory> {
        self.insert_at(number(request.key), 0, request.now)
            .map(|_| ())
    }

    fn statistics(&self) -> Statistics {
        self.statistics()
    }

    fn window(&self) -> Option<u64> {
        Some(self.window_capacity())
    }
}

/// A cache of bytes, and the buffer for the values that it finds.
struct Bytes {
    cache: ByteCache,
    value: Vec<u8>,
}

impl Calls for Bytes {
    fn get(&mut self, request: &Request) -> Result<bool, OutOfMemory> {
        let (cache, value) = (&mut self.cache, &mut self.value);
        with_bytes(request.key, |key| {
            cache.get_into_at(key, value, request.now)
        })
    }

    fn insert(&mut self, request: &Request) -> Result<(), OutOfMemory> {
        let cache = &mut self.cache;
        with_bytes(request.key, |key| {
            cache.insert_at(key, request.value, request.now)
        })
        .map(|_| ())
    }

    fn statistics(&self) -> Statistics {
        self.cache.statistics()
    }

    fn window(&self) -> Option<u64> {
        Some(self.cache.window_capacity())
    }
}

/// A cache that threads share, and the buffer for the values that it finds.
struct Segmented {
    cache: sync::ByteCache,
    value: Vec<u8>,
}

impl Calls for Segmented {
    fn get(&mut self, request: &Request) -> Result<bool, OutOfMemory> {
        let (cache, value) = (&self.cache, &mut self.value);
        with_bytes(request.key, |key| {
            cache.get_into_at(key, value, request.now)
        })
    }

    fn insert(&mut self, request: &Request) -> Result<(), OutOfMemory> {
        let cache = &self.cache;
        with_bytes(request.key, |key| {
            cache.insert_at(key, request.value, request.now)
        })
        .map(|_| ())
    }

    fn statistics(&self) -> Statistics {
        self.cache.statistics()
    }

    fn window(&self) -> Option<u64> {
        Some(self.cache.window_capacity())
    }
}

/// Returns the number of a key. Only keys that are numbers are played on a cache of numbers.
fn number(key: Key) -> u64 {
    match key {
        Key::Number(number) => number,
        Key::Text(_) => unreachable!("a text is played on a cache of bytes"),
    }
}

/// Calls `then` with the bytes of a key: those of a number are its 8, the lowest first.
fn with_bytes<T>(key: Key, then: impl FnOnce(&[u8]) -> T) -> T {
    match key {
        Key::Number(number) => then(&number.to_le_bytes()),
        Key::Text(text) => then(text),
    }
}
