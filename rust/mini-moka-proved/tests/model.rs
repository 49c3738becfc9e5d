//! Compares random calls with those of a map.

mod common;

use common::Random;
use mini_moka_proved::{ByteBuilder, ByteCache, Cause, Inserted, NumberCache};
use std::collections::HashMap;
use std::time::Duration;

const CALLS: u64 = 100_000;
const KEYS: u64 = 400;
const TIME_TO_LIVE: u64 = 3000;
const TIME_TO_IDLE: u64 = 1000;

/// Returns one of at most `KEYS` keys, of 0 to 39 bytes.
fn some_key(random: &mut Random) -> Vec<u8> {
    let key = random.below(KEYS);
    let length = (key % 40) as usize;
    key.to_le_bytes().into_iter().cycle().take(length).collect()
}

/// Returns a value of up to 599 bytes, so that some are too long for a first look-up.
fn some_value(random: &mut Random) -> Vec<u8> {
    let length = random.below(600) as usize;
    let byte = random.next() as u8;
    vec![byte; length]
}

/// A value, and the moments of its last write and its last use.
#[derive(Clone)]
struct Entry {
    value: Vec<u8>,
    written: u64,
    used: u64,
}

/// A map whose entries expire as those of the cache do.
#[derive(Default)]
struct Model {
    entries: HashMap<Vec<u8>, Entry>,
    expires: bool,
    updates: u64,
    removals: u64,
}

impl Model {
    fn live(&mut self, key: &[u8], now: u64) -> Option<&mut Entry> {
        let expires = self.expires;
        self.entries.get_mut(key).filter(|entry| {
            !expires || (now < entry.written + TIME_TO_LIVE && now < entry.used + TIME_TO_IDLE)
        })
    }

    fn peek(&mut self, key: &[u8], now: u64) -> Option<Vec<u8>> {
        self.live(key, now).map(|entry| entry.value.clone())
    }

    fn get(&mut self, key: &[u8], now: u64) -> Option<Vec<u8>> {
        let entry = self.live(key, now)?;
        entry.used = now;
        Some(entry.value.clone())
    }

    fn insert(&mut self, key: &[u8], value: &[u8], now: u64) {
        // An insert over an expired value isn't an update.
        self.updates += u64::from(self.live(key, now).is_some());
        let entry = Entry {
            value: value.to_vec(),
            written: now,
            used: now,
        };
        self.entries.insert(key.to_vec(), entry);
    }

    fn remove(&mut self, key: &[u8], now: u64) -> Option<Vec<u8>> {
        let value = self.peek(key, now);
        self.removals += u64::from(value.is_some());
        self.entries.remove(key);
        value
    }
}

/// Makes one call on both, and compares the results.
fn compare_a_call(random: &mut Random, cache: &mut ByteCache, model: &mut Model, nanoseconds: u64) {
    let now = Duration::from_nanos(nanoseconds);
    let key = some_key(random);
    match random.below(10) {
        0..=2 => {
            let value = some_value(random);
            assert_eq!(cache.insert_at(&key, &value, now), Ok(Inserted::Stored));
            model.insert(&key, &value, nanoseconds);
        }
        3 | 4 => assert_eq!(cache.get_at(&key, now), model.get(&key, nanoseconds)),
        5 => {
            let mut buffer = some_value(random);
            let found = cache.get_into_at(&key, &mut buffer, now).unwrap();
            assert_eq!(found.then_some(buffer), model.get(&key, nanoseconds));
        }
        6 => assert_eq!(cache.peek_at(&key, now), model.peek(&key, nanoseconds)),
        7 => {
            let is_there = model.live(&key, nanoseconds).is_some();
            assert_eq!(cache.contains_key_at(&key, now), is_there);
        }
        8 => {
            let value = some_value(random);
            let found = cache.get_or_insert_with_at(&key, || value.clone(), now);
            let known = model.get(&key, nanoseconds);
            if known.is_none() {
                model.insert(&key, &value, nanoseconds);
            }
            assert_eq!(found.unwrap(), known.unwrap_or(value));
        }
        _ if random.below(2) == 0 => {
            let removed = cache.remove_at(&key, now).unwrap();
            assert_eq!(removed, model.remove(&key, nanoseconds));
        }
        _ => {
            cache.invalidate_at(&key, now);
            model.remove(&key, nanoseconds);
        }
    }
}

#[test]
fn a_cache_without_limits_is_a_map() {
    let mut random = Random(1);
    let mut cache = ByteCache::builder().build().unwrap();
    let mut model = Model::default();
    for _ in 0..CALLS {
        compare_a_call(&mut random, &mut cache, &mut model, 0);
        assert_eq!(cache.len(), model.entries.len());
        if random.below(5000) == 0 {
            cache.clear();
            model.entries.clear();
        }
    }
}

#[test]
fn a_cache_with_durations_is_a_map_whose_entries_expire() {
    let mut random = Random(2);
    let builder = ByteCache::builder()
        .time_to_live(Duration::from_nanos(TIME_TO_LIVE))
        .time_to_idle(Duration::from_nanos(TIME_TO_IDLE));
    let mut cache = builder.build().unwrap();
    let mut model = Model {
        expires: true,
        ..Model::default()
    };
    let mut now = 0;
    for _ in 0..CALLS {
        now += random.below(5);
        compare_a_call(&mut random, &mut cache, &mut model, now);
        let counts = cache.statistics();
        assert_eq!(
            (counts.updates, counts.removals),
            (model.updates, model.removals)
        );
    }
    assert!(model.updates > 1000 && model.removals > 1000);
}

/// Returns a key that often was used shortly before, if the window is to move.
fn recurring_key(random: &mut Random, call: u64) -> u64 {
    if random.below(3) == 0 {
        return random.below(KEYS);
    }
    (call / 3 + random.below(14)) % KEYS
}

/// Compares a full cache with a map: it finds nothing but what was last written. Returns how often
/// its window moved.
fn compare_a_full_cache(builder: ByteBuilder, capacity: u64) -> u64 {
    let mut random = Random(capacity);
    let mut cache = builder.max_capacity(capacity).build().unwrap();
    let first_window = cache.window_capacity();
    let mut map = HashMap::new();
    let (mut found, mut moved) = (0, 0);
    for call in 0..CALLS / 8 {
        let key = recurring_key(&mut random, call).to_le_bytes();
        let value = some_value(&mut random);
        let window = cache.window_capacity();
        if let Some(known) = cache.get(key) {
            assert_eq!(map.get(&key), Some(&known));
            found += 1;
        }
        assert_eq!(cache.window_capacity(), window);
        if random.below(2) == 0 {
            match cache.insert(key, &value).unwrap() {
                Inserted::Stored => assert_eq!(cache.peek(key), Some(value.clone())),
                Inserted::Rejected => assert_eq!(cache.peek(key), None),
            }
            map.insert(key, value);
        }
        assert!(cache.len() as u64 <= capacity);
        let now = cache.window_capacity();
        assert!((first_window..=first_window.max(capacity * 80 / 100)).contains(&now));
        moved += u64::from(now != window);
    }
    let counts = cache.statistics();
    assert_eq!(counts.hits, found);
    assert!(found > 1000 && counts.rejections + counts.evictions > 1000);
    let entered = counts.inserts - counts.updates - counts.rejections;
    assert_eq!(entered, counts.evictions + cache.len() as u64);
    moved
}

#[test]
fn a_full_cache_finds_nothing_but_what_was_last_written() {
    for capacity in [KEYS / 8, KEYS / 2] {
        for share in [0, 1, 20, 100] {
            let builder = ByteCache::builder().window_share(share);
            assert_eq!(compare_a_full_cache(builder.clone(), capacity), 0);
            assert_eq!(
                compare_a_full_cache(builder.protected_share(80), capacity),
                0
            );
            let adaptive = ByteCache::builder().adaptive().window_share(share);
            let moved = compare_a_full_cache(adaptive, capacity);
            let has_window = capacity * u64::from(share) / 100 > 0;
            // The key of the hash differs from run to run, so the window may move ten times or hundreds.
            assert_eq!(moved > 0, has_window && share < 80);
        }
    }
}

/// Drains the removed entries, and removes those from the map that left the cache.
fn drain_into(cache: &mut ByteCache, map: &mut HashMap<[u8; 8], Vec<u8>>) {
    for removed in cache.removed() {
        let removed = removed.unwrap();
        let key = <[u8; 8]>::try_from(removed.key).unwrap();
        if removed.cause != Cause::Replaced {
            assert_eq!(map.remove(&key), Some(removed.value));
        }
    }
}

#[test]
fn a_full_weighed_cache_keeps_its_capacity() {
    for is_adaptive in [false, true] {
        let mut random = Random(9);
        let builder = ByteCache::builder().max_capacity(20_000).weigh_bytes();
        let builder = if is_adaptive {
            builder.adaptive().window_share(5)
        } else {
            builder
        };
        let mut cache = builder.removed_room(100).build().unwrap();
        let mut map = HashMap::new();
        let mut moved = 0;
        for call in 0..CALLS / 8 {
            let key = recurring_key(&mut random, call).to_le_bytes();
            let window = cache.window_capacity();
            // A get first evicts what an update has left above the capacity.
            let found = cache.get(key);
            drain_into(&mut cache, &mut map);
            assert_eq!(found, map.get(&key).cloned());
            assert!(cache.weighted_size() <= 20_000);
            let value = some_value(&mut random);
            cache.insert(key, &value).unwrap();
            map.insert(key, value);
            drain_into(&mut cache, &mut map);
            assert_eq!(cache.len(), map.len());
            moved += u64::from(cache.window_capacity() != window);
        }
        assert_eq!(moved > 10, is_adaptive);
        assert_eq!(cache.statistics().lost, 0);
    }
}

#[test]
fn a_cache_of_numbers_without_limits_is_a_map() {
    let mut random = Random(3);
    let mut cache = NumberCache::builder().build().unwrap();
    let mut map = HashMap::new();
    for _ in 0..CALLS {
        let (key, value) = (random.below(KEYS), random.next());
        match random.below(6) {
            0 | 1 => {
                cache.insert(key, value).unwrap();
                map.insert(key, value);
            }
            2 => assert_eq!(cache.get(key), map.get(&key).copied()),
            3 => assert_eq!(cache.contains_key(key), map.contains_key(&key)),
            4 => {
                let known = *map.entry(key).or_insert(value);
                assert_eq!(cache.get_or_insert(key, value), Ok(known));
            }
            _ => assert_eq!(cache.remove(key).unwrap(), map.remove(&key)),
        }
        assert_eq!(cache.len(), map.len());
    }
}
