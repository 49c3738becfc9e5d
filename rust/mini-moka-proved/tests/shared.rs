//! Tests each call of a cache that threads share, in one thread.

mod common;

use common::{bytes, returns, Random, SECOND, START};
use mini_moka_proved::{sync, ByteCache};
use std::cell::Cell;
use std::thread::sleep;
use std::time::Duration;

/// Builds a shared cache, and returns its number of segments.
fn segments(builder: sync::ByteBuilder) -> usize {
    builder.build().unwrap().segments()
}

#[test]
fn a_shared_cache_answers_as_one() {
    let cache = sync::ByteCache::new(1000).unwrap();
    let other = cache.clone();
    assert!(other.is_empty());
    cache.insert("alice", "admin").unwrap();
    assert_eq!(other.get("alice"), Some(b"admin".to_vec()));
    assert_eq!(other.try_get("bob"), Ok(None));
    assert_eq!(other.peek("alice"), Some(b"admin".to_vec()));
    assert!(other.contains_key("alice"));
    let mut buffer = b"of another user".to_vec();
    assert_eq!(cache.get_into("bob", &mut buffer), Ok(false));
    assert_eq!(buffer, b"");
    assert_eq!(cache.get_into("alice", &mut buffer), Ok(true));
    assert_eq!(buffer, b"admin");
    assert_eq!(
        cache
            .get_or_insert_with("carol", || b"guest".to_vec())
            .unwrap(),
        b"guest"
    );
    assert_eq!(cache.len(), 2);
    assert_eq!(cache.weighted_size(), 2);
    let counts = cache.statistics();
    assert_eq!((counts.hits, counts.misses, counts.inserts), (2, 3, 2));
    assert_eq!(other.remove("alice"), Ok(Some(b"admin".to_vec())));
    assert_eq!(other.remove("alice"), Ok(None));
    cache.invalidate("carol");
    assert!(cache.is_empty());
    cache.insert("alice", "admin").unwrap();
    cache.clear();
    assert_eq!(cache.len(), 0);
    let shown = format!("{cache:?}");
    assert_eq!(
        shown,
        "ByteCache { len: 0, weighted_size: 0, segments: 10, .. }"
    );
}

#[test]
fn each_segment_has_a_hundred_entries_and_the_parts_are_the_whole() {
    let of = |capacity| segments(sync::ByteCache::builder().max_capacity(capacity));
    assert_eq!(
        [0, 99, 199, 200, 1599, 1600, u64::MAX - 1].map(of),
        [1, 1, 1, 2, 15, 16, 16]
    );
    assert_eq!(segments(sync::ByteCache::builder()), 16);
    let weighed = sync::ByteCache::builder().weigh_bytes();
    assert_eq!(segments(weighed.clone().max_capacity((1 << 21) - 1)), 1);
    assert_eq!(segments(weighed.max_capacity(1 << 21)), 2);
    assert_eq!(segments(sync::ByteCache::builder().segments(0)), 1);
    assert_eq!(segments(sync::ByteCache::builder().segments(3)), 3);
    let most = sync::ByteCache::builder().segments(usize::MAX);
    assert_eq!(segments(most), 65_536);

    let builder = sync::ByteCache::builder().max_capacity(1003).segments(4);
    let cache = builder.initial_capacity(1003).build().unwrap();
    for key in 0..20_000u64 {
        cache.insert(key.to_le_bytes(), b"").unwrap();
    }
    assert_eq!(cache.len(), 1003);
}

#[test]
fn a_shared_cache_has_one_clock() {
    let live = Duration::from_millis(50);
    let builder = sync::ByteCache::builder().time_to_live(live);
    let cache = builder.build().unwrap();
    let before = cache.now();
    for key in 0..100u8 {
        cache.insert([key], b"value").unwrap();
    }
    assert!((0..100u8).all(|key| cache.peek_at([key], before).is_some()));
    sleep(live);
    assert!((0..100u8).all(|key| cache.get([key]).is_none()));
}

/// Returns a shared cache's keys at a moment, sorted.
fn keys_at(cache: &sync::ByteCache, now: Duration) -> Vec<u8> {
    let pairs = cache.iter_at(now).map(|pair| pair.unwrap());
    let mut keys: Vec<u8> = pairs.map(|(key, _)| key[0]).collect();
    keys.sort_unstable();
    keys
}

#[test]
fn a_shared_cache_takes_moments() {
    let second = Duration::from_secs(1);
    let builder = sync::ByteCache::builder().time_to_live(10 * second);
    let cache = builder.segments(4).build().unwrap();
    cache.insert_at([1], [1], 5 * second).unwrap();
    let made = cache.get_or_insert_with_at([2], || vec![2], 6 * second);
    assert_eq!(made, Ok(vec![2]));
    let found = cache.get_or_insert_with_at([1], || vec![9], 14 * second);
    assert_eq!(found, Ok(vec![1]));
    assert_eq!(cache.get_at([1], 14 * second), Some(vec![1]));
    assert_eq!(cache.peek_at([1], 14 * second), Some(vec![1]));
    assert_eq!(keys_at(&cache, 14 * second), [1, 2]);
    assert_eq!(keys_at(&cache, 15 * second), [2]);
    assert!(!cache.contains_key_at([1], 15 * second));
    assert!(cache.contains_key_at([2], 15 * second));
    assert_eq!(cache.try_get_at([1], 15 * second), Ok(None));
    let mut buffer = Vec::new();
    assert_eq!(cache.get_into_at([2], &mut buffer, 15 * second), Ok(true));
    assert_eq!(buffer, [2]);
    assert_eq!(cache.remove_at([2], 15 * second), Ok(Some(vec![2])));
    cache.insert_at([3], [3], 15 * second).unwrap();
    cache.invalidate_at([3], 15 * second);
    assert!(cache.is_empty());
    assert_eq!(sync::ByteCache::new(9).unwrap().now(), Duration::ZERO);
}

#[test]
fn an_iterator_meets_each_entry_of_each_segment_once() {
    let cache = sync::ByteCache::builder().segments(7).build().unwrap();
    for key in 0..200u8 {
        cache.insert([key], [key, key]).unwrap();
    }
    assert_eq!(keys_at(&cache, cache.now()), Vec::from_iter(0..200));
    let before = cache.statistics();
    for pair in &cache {
        let (key, value) = pair.unwrap();
        assert_eq!(value, [key[0], key[0]]);
        // No lock is held here.
        cache.invalidate(key);
    }
    assert!(cache.is_empty());
    assert_eq!(cache.statistics().hits, before.hits);
    assert!(cache.iter().next().is_none());
}

#[test]
fn keys_of_each_length_are_found_in_their_segments() {
    let builder = sync::ByteCache::builder().weigh_bytes().segments(5);
    let cache = builder.build().unwrap();
    for length in 0..100 {
        cache.insert(bytes(length), bytes(length)).unwrap();
        assert_eq!(cache.get(bytes(length)), Some(bytes(length)));
    }
    assert!((0..100).all(|length| cache.contains_key(bytes(length))));
    let shown = format!("{cache:?}");
    assert_eq!(
        shown,
        "ByteCache { len: 100, weighted_size: 9900, segments: 5, .. }"
    );
}

#[test]
fn each_call_of_a_shared_cache_takes_its_moment() {
    // A call that finds nothing removes what is expired, so each has its own cache.
    let calls: [fn(&sync::ByteCache, Duration) -> bool; 8] = [
        |cache, now| cache.get_at([1], now).is_some(),
        |cache, now| cache.try_get_at([1], now).unwrap().is_some(),
        |cache, now| cache.get_into_at([1], &mut Vec::new(), now).unwrap(),
        |cache, now| cache.peek_at([1], now).is_some(),
        |cache, now| cache.contains_key_at([1], now),
        |cache, now| cache.iter_at(now).next().is_some(),
        |cache, now| cache.remove_at([1], now).unwrap().is_some(),
        |cache, now| cache.get_or_insert_with_at([1], || vec![2], now) == Ok(vec![1]),
    ];
    for call in calls {
        for (now, is_there) in [(9, true), (10, false)] {
            let builder = sync::ByteCache::builder().time_to_live(10 * SECOND);
            let cache = builder.segments(1).build().unwrap();
            cache.insert_at([1], [1], START).unwrap();
            assert_eq!(call(&cache, now * SECOND), is_there);
        }
    }
}

#[test]
fn a_shared_cache_of_one_segment_works_as_a_cache() {
    for is_weighed in [false, true] {
        let mut random = Random(1);
        let mut of_one = ByteCache::builder();
        let mut of_all = sync::ByteCache::builder().segments(1);
        if is_weighed {
            (of_one, of_all) = (of_one.weigh_bytes(), of_all.weigh_bytes());
        }
        let most = if is_weighed { 20 } else { 3 };
        let durations = (5 * SECOND, 3 * SECOND);
        let of_one = of_one.max_capacity(most).removed_room(9);
        let of_one = of_one.time_to_live(durations.0).time_to_idle(durations.1);
        let of_all = of_all.max_capacity(most).removed_room(9);
        let of_all = of_all.time_to_live(durations.0).time_to_idle(durations.1);
        let mut one = of_one.seed([7; 16]).build().unwrap();
        let all = of_all.seed([7; 16]).build().unwrap();
        for turn in 0..5000u32 {
            let (now, key) = (turn * SECOND / 4, [random.below(7) as u8]);
            let value = vec![turn as u8; random.below(6) as usize];
            match random.below(12) {
                0 => assert_eq!(one.remove_at(key, now), all.remove_at(key, now)),
                1 => {
                    one.invalidate_at(key, now);
                    all.invalidate_at(key, now);
                }
                2 | 3 => assert_eq!(one.get_at(key, now), all.get_at(key, now)),
                4 => assert_eq!(one.peek_at(key, now), all.peek_at(key, now)),
                5 => assert_eq!(one.contains_key_at(key, now), all.contains_key_at(key, now)),
                6 => assert!(one.iter_at(now).eq(all.iter_at(now))),
                7 if random.below(3) == 0 => assert!(one.removed().eq(all.removed())),
                _ => assert_eq!(
                    one.insert_at(key, &value, now),
                    all.insert_at(key, &value, now)
                ),
            }
            assert_eq!((one.len(), one.is_empty()), (all.len(), all.is_empty()));
            assert_eq!(one.weighted_size(), all.weighted_size());
            assert_eq!(one.statistics(), all.statistics());
        }
        // Each count is one of its own, so that none can stand for another.
        let it = one.statistics();
        let mut counts = vec![it.hits, it.misses, it.inserts, it.updates, it.rejections];
        counts.extend([it.evictions, it.expirations, it.removals, it.lost]);
        counts.sort_unstable();
        let differ = counts.windows(2).all(|pair| pair[0] < pair[1]);
        assert!(counts[0] > 0 && differ, "{it:?}");
    }
}

#[test]
fn the_statistics_of_all_segments_are_added() {
    for room in [9, 60_000] {
        let mut random = Random(1);
        let builder = sync::ByteCache::builder().weigh_bytes().max_capacity(60);
        let builder = builder.time_to_live(10 * SECOND).removed_room(room);
        let cache = builder.segments(3).build().unwrap();
        let (mut gets, mut inserts, mut returned) = ([0; 2], 0, 0);
        // The numbers of drained entries by cause.
        let mut left = [0u64; 5];
        let mut drain = || {
            for removed in cache.removed() {
                left[removed.unwrap().cause as usize] += 1;
            }
        };
        for turn in 0..6000u32 {
            let (now, key) = (turn * SECOND / 4, [random.below(20) as u8]);
            let value = vec![turn as u8; random.below(9) as usize];
            match random.below(9) {
                0 => cache.invalidate_at(key, now),
                1 => returned += cache.remove_at(key, now).unwrap().iter().count() as u64,
                2 | 3 => gets[usize::from(cache.get_at(key, now).is_some())] += 1,
                4 if turn < 5000 => drain(),
                _ => {
                    cache.insert_at(key, &value, now).unwrap();
                    inserts += 1;
                }
            }
        }
        drain();
        let it = cache.statistics();
        assert_eq!(([it.misses, it.hits], it.inserts), (gets, inserts));
        let explicit = it.removals - returned;
        let counts = [it.evictions, it.expirations, explicit, it.updates];
        let counts = [&counts[..], &[it.rejections]].concat();
        if room > 9 {
            assert_eq!((it.lost, &counts[..]), (0, &left[..]));
        }
        let all: u64 = counts.iter().sum();
        assert_eq!(left.iter().sum::<u64>() + it.lost, all);
        assert_eq!(it.lost > 0, room == 9);
        let remaining = inserts - it.updates - it.rejections;
        let gone = it.evictions + it.expirations + it.removals;
        assert_eq!(remaining, gone + cache.len() as u64);
    }
}

#[test]
fn make_may_call_the_cache() {
    let answers = returns(|| {
        let cache = sync::ByteCache::builder().segments(1).build().unwrap();
        let make = || {
            cache.insert("other", "value").unwrap();
            b"made".to_vec()
        };
        let first = cache.get_or_insert_with("key", make);
        (first, cache.get_or_insert_with_at("next", make, START))
    });
    assert_eq!(answers, (Ok(b"made".to_vec()), Ok(b"made".to_vec())));
}

/// Bytes that call the cache when they are read, and when they are dropped.
struct Calling<'a> {
    cache: &'a sync::ByteCache,
    calls: &'a Cell<u32>,
}

impl Calling<'_> {
    /// Makes calls that lock each segment.
    fn call(&self) {
        self.cache.insert("other", "value").unwrap();
        assert_eq!(self.cache.get("other"), Some(b"value".to_vec()));
        assert!(!self.cache.is_empty() && self.cache.iter().next().is_some());
        self.calls.set(self.calls.get() + 1);
    }
}

impl AsRef<[u8]> for Calling<'_> {
    fn as_ref(&self) -> &[u8] {
        self.call();
        b"calling"
    }
}

impl Drop for Calling<'_> {
    fn drop(&mut self) {
        self.call();
    }
}

#[test]
fn keys_and_values_may_call_the_cache() {
    let calls = returns(|| {
        let cache = sync::ByteCache::builder()
            .segments(1)
            .removed_room(9)
            .build();
        let (cache, calls) = (&cache.unwrap(), &Cell::new(0));
        let it = || Calling { cache, calls };
        let mut buffer = Vec::new();
        cache.insert(it(), it()).unwrap();
        cache.insert_at("key", it(), START).unwrap();
        assert_eq!(cache.get(it()), Some(b"calling".to_vec()));
        assert_eq!(cache.try_get_at(it(), START), Ok(Some(b"calling".to_vec())));
        assert_eq!(cache.get_into(it(), &mut buffer), Ok(true));
        assert_eq!(cache.peek(it()), Some(b"calling".to_vec()));
        assert!(cache.contains_key(it()));
        assert!(cache.get_or_insert_with(it(), Vec::new).is_ok());
        assert!(cache.get_or_insert_with_at(it(), Vec::new, START).is_ok());
        let removed = cache.removed().next().unwrap().unwrap();
        cache.insert(removed.key, it()).unwrap();
        cache.clear();
        cache.insert(it(), "value").unwrap();
        assert_eq!(cache.remove(it()), Ok(Some(b"value".to_vec())));
        cache.invalidate(it());
        calls.get()
    });
    // Each key or value is read once, and dropped once.
    assert_eq!(calls, 2 * 14);
}
