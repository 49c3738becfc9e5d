//! Tests inserts with a time to live of their own.

mod common;

use common::{NANOSECOND, START};
use mini_moka_proved::{
    sync, ByteCache, Cache, Inserted, Insertion, ManualClock, NumberCache, TimedInsertError,
};

const NO_TIME_TO_LIVE: TimedInsertError = TimedInsertError::NoTimeToLive;

#[test]
fn bytes_expire_after_the_shorter_time() {
    let live = NANOSECOND * 20;
    let mut cache = ByteCache::builder().time_to_live(live).build().unwrap();
    let shared = sync::ByteCache::builder()
        .time_to_live(live)
        .build()
        .unwrap();
    for (key, own, last) in [("own", 5, 14), ("long", 99, 29), ("zero", 0, 9)] {
        let (own, now) = (NANOSECOND * own, NANOSECOND * 10);
        let stored = cache.insert_with_time_to_live_at(key, "value", own, now);
        assert_eq!(stored, Ok(Inserted::Stored));
        let stored = shared.insert_with_time_to_live_at(key, "value", own, now);
        assert_eq!(stored, Ok(Inserted::Stored));
        let last = NANOSECOND * last;
        assert_eq!(cache.peek_at(key, last).as_deref(), Some(&b"value"[..]));
        assert_eq!(cache.peek_at(key, last + NANOSECOND), None);
        assert_eq!(shared.peek_at(key, last).as_deref(), Some(&b"value"[..]));
        assert_eq!(shared.peek_at(key, last + NANOSECOND), None);
    }
    cache.insert_at("own", "next", NANOSECOND * 10).unwrap();
    let found = cache.peek_at("own", NANOSECOND * 29);
    assert_eq!(found.as_deref(), Some(&b"next"[..]));
}

#[test]
fn numbers_expire_after_the_shorter_time() {
    let builder = NumberCache::builder().time_to_live(NANOSECOND * 20);
    let mut cache = builder.build().unwrap();
    for (key, own, last) in [(1, 5, 14), (2, 99, 29), (3, 0, 9)] {
        let (own, now) = (NANOSECOND * own, NANOSECOND * 10);
        let stored = cache.insert_with_time_to_live_at(key, key * key, own, now);
        assert_eq!(stored, Ok(Inserted::Stored));
        let last = NANOSECOND * last;
        assert_eq!(cache.peek_at(key, last), Some(key * key));
        assert_eq!(cache.peek_at(key, last + NANOSECOND), None);
    }
}

#[test]
fn typed_entries_expire_after_the_shorter_time() {
    let clock = ManualClock::new();
    let live = NANOSECOND * 20;
    let builder = Cache::builder().time_to_live(live).manual_clock(&clock);
    let mut cache: Cache<String, u32> = builder.build();
    let builder = sync::Cache::builder()
        .time_to_live(live)
        .manual_clock(&clock);
    let shared: sync::Cache<String, u32> = builder.build();
    for (key, own) in [("own", 5), ("long", 99)] {
        let own = NANOSECOND * own;
        let done = cache.insert_with_time_to_live(key.to_string(), 1, own);
        assert_eq!(done, Ok(Insertion::New));
        let done = shared.insert_with_time_to_live(key.to_string(), 1, own);
        assert_eq!(done, Ok(Insertion::New));
    }
    let done = cache.insert_with_time_to_live("own".to_string(), 2, NANOSECOND * 5);
    assert_eq!(done, Ok(Insertion::Replaced(1)));
    clock.advance(NANOSECOND * 4);
    assert_eq!((cache.get("own"), shared.get("own")), (Some(&2), Some(1)));
    clock.advance(NANOSECOND);
    assert_eq!((cache.get("own"), shared.get("own")), (None, None));
    assert_eq!((cache.get("long"), shared.get("long")), (Some(&1), Some(1)));
    clock.advance(NANOSECOND * 15);
    assert_eq!((cache.get("long"), shared.get("long")), (None, None));
}

#[test]
fn expired_entries_are_removed_at_once() {
    let live = NANOSECOND * 20;
    let mut bytes = ByteCache::builder().time_to_live(live).build().unwrap();
    let mut numbers = NumberCache::builder().time_to_live(live).build().unwrap();
    let shared = sync::ByteCache::builder()
        .time_to_live(live)
        .build()
        .unwrap();
    let own = NANOSECOND * 5;
    for key in 0..9u8 {
        bytes.insert_at([key], "long", START).unwrap();
        numbers.insert_at(key.into(), 1, START).unwrap();
        shared.insert_at([key], "long", START).unwrap();
        let other = key + 10;
        bytes
            .insert_with_time_to_live_at([other], "short", own, START)
            .unwrap();
        numbers
            .insert_with_time_to_live_at(other.into(), 1, own, START)
            .unwrap();
        shared
            .insert_with_time_to_live_at([other], "short", own, START)
            .unwrap();
    }
    for (now, left) in [(4, 18), (5, 9), (19, 9), (20, 0)] {
        let now = NANOSECOND * now;
        bytes.remove_expired_at(now);
        numbers.remove_expired_at(now);
        shared.remove_expired_at(now);
        let lengths = (bytes.len(), numbers.len(), shared.len());
        assert_eq!(lengths, (left, left, left));
    }
}

#[test]
fn expired_entries_are_removed_by_the_clock() {
    let clock = ManualClock::new();
    let builder = ByteCache::builder().time_to_live(NANOSECOND);
    let mut bytes = builder.manual_clock(&clock).build().unwrap();
    let builder = NumberCache::builder().time_to_live(NANOSECOND);
    let mut numbers = builder.manual_clock(&clock).build().unwrap();
    let builder = sync::ByteCache::builder().time_to_live(NANOSECOND);
    let shared = builder.manual_clock(&clock).build().unwrap();
    bytes.insert("a", "b").unwrap();
    numbers.insert(1, 2).unwrap();
    shared.insert("a", "b").unwrap();
    clock.advance(NANOSECOND);
    assert_eq!((bytes.len(), numbers.len(), shared.len()), (1, 1, 1));
    bytes.remove_expired();
    numbers.remove_expired();
    shared.remove_expired();
    assert_eq!((bytes.len(), numbers.len(), shared.len()), (0, 0, 0));
}

#[test]
fn a_cache_without_a_time_to_live_refuses() {
    let mut bytes = ByteCache::new(9).unwrap();
    let mut numbers = NumberCache::new(9).unwrap();
    let shared = sync::ByteCache::new(9).unwrap();
    let mut typed: Cache<u32, u32> = Cache::new(9);
    let threads: sync::Cache<u32, u32> = sync::Cache::new(9);
    let refused = bytes.insert_with_time_to_live("a", "b", NANOSECOND);
    assert_eq!(refused, Err(NO_TIME_TO_LIVE));
    let refused = bytes.insert_with_time_to_live_at("a", "b", NANOSECOND, START);
    assert_eq!(refused, Err(NO_TIME_TO_LIVE));
    let refused = numbers.insert_with_time_to_live(1, 2, NANOSECOND);
    assert_eq!(refused, Err(NO_TIME_TO_LIVE));
    let refused = shared.insert_with_time_to_live("a", "b", NANOSECOND);
    assert_eq!(refused, Err(NO_TIME_TO_LIVE));
    let refused = typed.insert_with_time_to_live(1, 2, NANOSECOND);
    assert_eq!(refused, Err(NO_TIME_TO_LIVE));
    let refused = threads.insert_with_time_to_live(1, 2, NANOSECOND);
    assert_eq!(refused, Err(NO_TIME_TO_LIVE));
    assert_eq!((bytes.len(), numbers.len(), shared.len()), (0, 0, 0));
    assert_eq!((typed.len(), threads.len()), (0, 0));
    assert_eq!(NO_TIME_TO_LIVE.to_string(), "the cache has no time to live");
}
