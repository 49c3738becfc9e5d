//! The original's caches for one thread and for several, an LRU cache, and a map without a limit, all with the port's hasher. The first can also have
//! std's.
use crate::port::Outcome;
use crate::traces::{
    Operation, Settings, GET, GET_AND_INSERT, INSERT, READ_THROUGH, REMOVE_AND_INSERT, UNLIMITED,
};
use mini_moka::sync::{Cache as SharedCache, ConcurrentCacheExt};
use mini_moka::unsync::Cache;
use std::hash::{BuildHasher, Hasher};
use std::time::Duration;

/// Hasher with one multiplication for each word of 64 bits.
#[derive(Clone, Copy, Default)]
pub struct Multiply(u64);

impl Hasher for Multiply {
    fn write(&mut self, _bytes: &[u8]) {
        unreachable!("keys are 64-bit numbers");
    }

    fn write_u64(&mut self, word: u64) {
        self.0 = (self.0.rotate_left(5) ^ word).wrapping_mul(0x517C_C1B7_2722_0A95);
    }

    fn finish(&self) -> u64 {
        self.0
    }
}

impl BuildHasher for Multiply {
    type Hasher = Multiply;

    fn build_hasher(&self) -> Multiply {
        Multiply(0)
    }
}

/// A cache that operations are played on.
pub trait Side {
    fn look(&mut self, key: u64) -> Option<u64>;
    fn put(&mut self, key: u64, value: u64);
    /// Removes the key's entry. The original returns no value.
    fn take_out(&mut self, key: u64);
    /// Does delayed work after the last operation.
    fn finish(&mut self) {}
    fn entries(&self) -> u64;
    fn weight(&self) -> u64;
}

pub type Original<S> = Cache<u64, u64, S>;

/// Makes the original's single-thread cache, with the port's hasher.
pub fn original(settings: &Settings) -> Original<Multiply> {
    original_with(settings, Multiply::default())
}

pub fn original_with<S: BuildHasher + Clone>(settings: &Settings, hash_state: S) -> Original<S> {
    let mut builder = Cache::builder();
    if settings.capacity != UNLIMITED {
        builder = builder.max_capacity(settings.capacity);
    }
    if settings.time_to_live != UNLIMITED {
        builder = builder.time_to_live(Duration::from_nanos(settings.time_to_live));
    }
    if settings.time_to_idle != UNLIMITED {
        builder = builder.time_to_idle(Duration::from_nanos(settings.time_to_idle));
    }
    if settings.is_weighed {
        builder = builder.weigher(|_key, value| u32::try_from(*value).unwrap_or(u32::MAX));
    }
    builder.build_with_hasher(hash_state)
}

impl<S: BuildHasher + Clone> Side for Original<S> {
    fn look(&mut self, key: u64) -> Option<u64> {
        self.get(&key).copied()
    }

    fn put(&mut self, key: u64, value: u64) {
        self.insert(key, value);
    }

    fn take_out(&mut self, key: u64) {
        self.invalidate(&key);
    }

    fn entries(&self) -> u64 {
        self.entry_count()
    }

    fn weight(&self) -> u64 {
        self.weighted_size()
    }
}

/// The original's shared cache.
pub type SharedOriginal = SharedCache<u64, u64, Multiply>;

/// Makes the original's shared cache, with the port's hasher.
pub fn shared_original(settings: &Settings) -> SharedOriginal {
    let mut builder = SharedCache::builder();
    if settings.capacity != UNLIMITED {
        builder = builder.max_capacity(settings.capacity);
    }
    if settings.time_to_live != UNLIMITED {
        builder = builder.time_to_live(Duration::from_nanos(settings.time_to_live));
    }
    if settings.time_to_idle != UNLIMITED {
        builder = builder.time_to_idle(Duration::from_nanos(settings.time_to_idle));
    }
    if settings.is_weighed {
        builder = builder.weigher(|_key, value| u32::try_from(*value).unwrap_or(u32::MAX));
    }
    builder.build_with_hasher(Multiply::default())
}

impl Side for SharedOriginal {
    fn look(&mut self, key: u64) -> Option<u64> {
        self.get(&key)
    }

    fn put(&mut self, key: u64, value: u64) {
        self.insert(key, value);
    }

    fn take_out(&mut self, key: u64) {
        self.invalidate(&key);
    }

    fn finish(&mut self) {
        self.sync();
    }

    fn entries(&self) -> u64 {
        self.entry_count()
    }

    fn weight(&self) -> u64 {
        self.weighted_size()
    }
}

pub type LruCache = lru::LruCache<u64, u64, Multiply>;

pub fn lru_cache(settings: &Settings) -> LruCache {
    LruCache::with_hasher(settings.capacity as usize, Multiply::default())
}

impl Side for LruCache {
    fn look(&mut self, key: u64) -> Option<u64> {
        self.get(&key).copied()
    }

    fn put(&mut self, key: u64, value: u64) {
        LruCache::put(self, key, value);
    }

    fn take_out(&mut self, key: u64) {
        self.pop(&key);
    }

    fn entries(&self) -> u64 {
        self.len() as u64
    }

    fn weight(&self) -> u64 {
        self.len() as u64
    }
}

pub type Map = hashbrown::HashMap<u64, u64, Multiply>;

pub fn map(_settings: &Settings) -> Map {
    Map::with_hasher(Multiply::default())
}

impl Side for Map {
    fn look(&mut self, key: u64) -> Option<u64> {
        self.get(&key).copied()
    }

    fn put(&mut self, key: u64, value: u64) {
        self.insert(key, value);
    }

    fn take_out(&mut self, key: u64) {
        self.remove(&key);
    }

    fn entries(&self) -> u64 {
        self.len() as u64
    }

    fn weight(&self) -> u64 {
        self.len() as u64
    }
}

/// Plays the operations, as the port does.
pub fn play<S: Side>(side: &mut S, operations: &[Operation]) -> Outcome {
    let mut outcome = Outcome::default();
    for operation in operations {
        match operation.kind {
            GET => {
                look(side, operation.key, &mut outcome);
            }
            INSERT => side.put(operation.key, u64::from(operation.value)),
            READ_THROUGH => {
                if !look(side, operation.key, &mut outcome) {
                    side.put(operation.key, u64::from(operation.value));
                }
            }
            GET_AND_INSERT => {
                look(side, operation.key, &mut outcome);
                side.put(operation.key, u64::from(operation.value));
            }
            REMOVE_AND_INSERT => {
                side.take_out(operation.key);
                side.put(operation.key, u64::from(operation.value));
            }
            _ => unreachable!("unknown kind of operation"),
        }
    }
    side.finish();
    outcome.entries = side.entries();
    outcome.weight = side.weight();
    outcome
}

fn look<S: Side>(side: &mut S, key: u64, outcome: &mut Outcome) -> bool {
    match side.look(key) {
        Some(value) => {
            outcome.hits += 1;
            outcome.checksum = outcome.checksum.wrapping_add(value);
            true
        }
        None => false,
    }
}
