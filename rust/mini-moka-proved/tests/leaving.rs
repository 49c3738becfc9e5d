//! Tests the causes and the counts of the entries that leave, and the queue of removed ones.

mod common;

use common::{bytes, SECOND, START};
use mini_moka_proved::{ByteCache, Cause, Inserted, NumberCache, Removed, Statistics};

#[test]
fn statistics_count_gets_and_inserts_and_what_leaves() {
    let mut cache = ByteCache::builder()
        .time_to_live(10 * SECOND)
        .build()
        .unwrap();
    assert_eq!(cache.statistics(), Statistics::default());
    for key in 0..3u8 {
        cache.insert_at([key], b"value", START).unwrap();
    }
    cache.insert_at([0], b"value", START).unwrap();
    assert!(cache.get_at([0], SECOND).is_some());
    assert!(cache.get_at([1], SECOND).is_some());
    assert!(cache.get_at([9], SECOND).is_none());
    assert!(cache.peek_at([1], SECOND).is_some());
    assert!(cache.remove_at([1], SECOND).unwrap().is_some());
    // The two remaining entries expire.
    assert!(!cache.contains_key_at([0], 10 * SECOND));
    let expected = Statistics {
        hits: 2,
        misses: 1,
        inserts: 4,
        updates: 1,
        expirations: 2,
        removals: 1,
        ..Statistics::default()
    };
    assert_eq!(cache.statistics(), expected);
}

#[test]
fn statistics_count_what_leaves_by_cause() {
    let mut cache = ByteCache::new(1).unwrap();
    cache.insert(b"kept", b"value").unwrap();
    cache.insert(b"new", b"value").unwrap();
    for _ in 0..4 {
        assert_eq!(cache.get(b"new"), None);
    }
    assert_eq!(cache.insert(b"new", b"value"), Ok(Inserted::Stored));
    cache.invalidate(b"new");
    cache.insert(b"kept", b"value").unwrap();
    cache.clear();
    let expected = Statistics {
        misses: 4,
        inserts: 4,
        rejections: 1,
        evictions: 1,
        removals: 2,
        ..Statistics::default()
    };
    assert_eq!(cache.statistics(), expected);
}

/// Drains the removed entries, and returns them as "key=value cause".
fn drained(cache: &mut ByteCache) -> Vec<String> {
    let text = |bytes| String::from_utf8(bytes).unwrap();
    let removed = cache.removed().map(Result::unwrap);
    removed
        .map(|it| format!("{}={} {:?}", text(it.key), text(it.value), it.cause))
        .collect()
}

#[test]
fn what_leaves_is_drained_in_order_and_by_cause() {
    let mut cache = ByteCache::builder()
        .max_capacity(2)
        .time_to_live(10 * SECOND)
        .removed_room(9)
        .build()
        .unwrap();
    cache.insert_at("a", "1", START).unwrap();
    cache.insert_at("a", "2", START).unwrap();
    cache.insert_at("b", "3", SECOND).unwrap();
    assert_eq!(cache.insert_at("c", "4", SECOND), Ok(Inserted::Rejected));
    for _ in 0..3 {
        assert_eq!(cache.get_at("d", SECOND), None);
    }
    cache.insert_at("d", "5", SECOND).unwrap();
    assert_eq!(cache.remove_at("d", SECOND), Ok(Some(b"5".to_vec())));
    cache.insert_at("e", "6", 2 * SECOND).unwrap();
    assert!(!cache.contains_key_at("b", 11 * SECOND));
    cache.clear();
    let left = [
        "a=1 Replaced",
        "c=4 Rejected",
        "a=2 Size",
        "b=3 Expired",
        "e=6 Explicit",
    ];
    assert_eq!(drained(&mut cache), left);
    assert_eq!(drained(&mut cache), [""; 0]);
    assert_eq!(cache.statistics().lost, 0);
}

#[test]
fn what_leaves_a_full_queue_is_counted_as_lost() {
    let mut cache = ByteCache::builder().removed_room(2).build().unwrap();
    for value in ["1", "2", "3", "4"] {
        cache.insert("a", value).unwrap();
    }
    assert_eq!(cache.statistics().lost, 1);
    assert_eq!(
        cache.removed().next().unwrap().unwrap(),
        Removed {
            key: b"a".to_vec(),
            value: b"1".to_vec(),
            cause: Cause::Replaced,
        }
    );
    cache.invalidate("a");
    assert_eq!(drained(&mut cache), ["a=2 Replaced", "a=4 Explicit"]);
    let mut without = ByteCache::builder().build().unwrap();
    without.insert("a", "1").unwrap();
    without.clear();
    assert_eq!(drained(&mut without), [""; 0]);
    assert_eq!(without.statistics().lost, 0);
}

#[test]
fn long_entries_are_drained_whole() {
    let mut cache = ByteCache::builder().removed_room(1).build().unwrap();
    cache.insert(bytes(1 << 20), bytes(1 << 21)).unwrap();
    cache.clear();
    let removed = cache.removed().next().unwrap().unwrap();
    assert_eq!(
        (removed.key, removed.value),
        (bytes(1 << 20), bytes(1 << 21))
    );
}

/// Creates a cache with two expired entries, and a live one that was written last. A call at
/// the moment 10 s finds them all: their order is that of the calls that wrote them.
fn hidden() -> ByteCache {
    let builder = ByteCache::builder()
        .time_to_live(10 * SECOND)
        .removed_room(9);
    let mut cache = builder.build().unwrap();
    cache.insert_at("live", "1", SECOND).unwrap();
    cache.insert_at("old", "2", START).unwrap();
    cache.insert_at("aged", "3", START).unwrap();
    cache
}

#[test]
fn an_insert_over_an_expired_value_is_no_update() {
    let mut cache = hidden();
    cache.insert_at("old", "4", 10 * SECOND).unwrap();
    cache.insert_at("live", "5", 10 * SECOND).unwrap();
    assert_eq!(drained(&mut cache), ["old=2 Expired", "live=1 Replaced"]);
    let counts = cache.statistics();
    assert_eq!((counts.inserts, counts.updates), (5, 1));
    assert_eq!((counts.expirations, counts.removals), (1, 0));
}

#[test]
fn a_call_that_removes_an_expired_entry_tells_that_it_expired() {
    let mut cache = hidden();
    cache.invalidate_at("old", 10 * SECOND);
    assert_eq!(cache.remove_at("aged", 10 * SECOND), Ok(None));
    cache.invalidate_at("live", 10 * SECOND);
    let left = ["old=2 Expired", "aged=3 Expired", "live=1 Explicit"];
    assert_eq!(drained(&mut cache), left);
    let counts = cache.statistics();
    assert_eq!((counts.expirations, counts.removals), (2, 1));
}

#[test]
fn a_clear_has_no_moment() {
    let mut cache = hidden();
    cache.clear();
    let left = drained(&mut cache);
    assert!(left.iter().all(|it| it.ends_with(" Explicit")), "{left:?}");
    let counts = cache.statistics();
    assert_eq!((counts.expirations, counts.removals), (0, 3));
}

#[test]
fn an_expired_number_is_neither_updated_nor_removed() {
    let builder = NumberCache::builder().time_to_live(10 * SECOND);
    let mut cache = builder.removed_room(9).build().unwrap();
    cache.insert_at(1, 1, SECOND).unwrap();
    for key in 2..6 {
        cache.insert_at(key, key, START).unwrap();
    }
    let now = 10 * SECOND;
    cache.insert_at(2, 20, now).unwrap();
    assert_eq!(cache.get_or_insert_at(3, 30, now), Ok(30));
    cache.invalidate_at(4, now);
    assert_eq!(cache.remove_at(5, now), Ok(None));
    cache.insert_at(1, 10, now).unwrap();
    let left: Vec<_> = cache.removed().map(|it| (it.value, it.cause)).collect();
    let expired = [2, 3, 4, 5].map(|value| (value, Cause::Expired));
    assert_eq!(left[..4], expired);
    assert_eq!(left[4..], [(1, Cause::Replaced)]);
    let counts = cache.statistics();
    assert_eq!((counts.inserts, counts.updates), (8, 1));
    assert_eq!((counts.expirations, counts.removals), (4, 0));
}

#[test]
fn what_was_drained_or_lost_is_what_left() {
    for room in [1, 5, 10_000] {
        let builder = ByteCache::builder().max_capacity(50).removed_room(room);
        let mut cache = builder.time_to_live(99 * SECOND).build().unwrap();
        let (mut drained, mut returned) = (0, 0);
        for turn in 0..3000u32 {
            let (key, now) = ([(turn * turn % 97) as u8], turn * SECOND);
            cache.insert_at(key, key, now).unwrap();
            match turn % 5 {
                0 => cache.invalidate_at([(turn % 97) as u8], now),
                1 => returned += cache.remove_at([9], now).unwrap().iter().count() as u64,
                2 => drained += cache.removed().count() as u64,
                _ => {}
            }
        }
        drained += cache.removed().count() as u64;
        let it = cache.statistics();
        let left = it.evictions + it.expirations + it.removals + it.updates + it.rejections;
        assert!(returned > 0 && drained > 0);
        assert_eq!(drained + it.lost, left - returned);
    }
}
