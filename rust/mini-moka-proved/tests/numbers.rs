//! Tests each call of the cache of numbers.

mod common;

use common::{NANOSECOND, SECOND};
use mini_moka_proved::{Cause, Inserted, NumberCache, Removed, Statistics};
use std::time::Duration;

fn unlimited() -> NumberCache {
    NumberCache::builder().build().unwrap()
}

#[test]
fn the_value_last_inserted_is_found() {
    let mut cache = unlimited();
    for (key, value) in [(0, 0), (u64::MAX, 1), (7, 48), (7, 49)] {
        cache.insert(key, value).unwrap();
    }
    assert_eq!(cache.get(0), Some(0));
    assert_eq!(cache.get(u64::MAX), Some(1));
    assert_eq!(cache.get(7), Some(49));
    assert_eq!(cache.peek(7), Some(49));
    assert_eq!(cache.get(8), None);
    assert_eq!(cache.len(), 3);
    assert_eq!(cache.weighted_size(), 3);
}

#[test]
fn an_entry_expires_at_the_end_of_its_time_to_live() {
    let builder = NumberCache::builder().time_to_live(10 * SECOND);
    let mut cache = builder.build().unwrap();
    cache.insert_at(7, 49, SECOND).unwrap();
    let last = 11 * SECOND - NANOSECOND;
    assert!(cache.contains_key_at(7, last));
    assert_eq!(cache.get_at(7, last), Some(49));
    assert_eq!(cache.peek_at(7, last), Some(49));
    let end = 11 * SECOND;
    assert_eq!(cache.peek_at(7, end), None);
    assert_eq!(cache.remove_at(7, end), Ok(None));
    assert_eq!(cache.get_at(7, end), None);
    assert!(!cache.contains_key_at(7, end));
}

#[test]
fn a_get_begins_the_time_to_idle_anew_and_a_peek_does_not() {
    let builder = NumberCache::builder().time_to_idle(10 * SECOND);
    let mut cache = builder.build().unwrap();
    cache.insert_at(7, 49, Duration::ZERO).unwrap();
    assert!(cache.get_at(7, 9 * SECOND).is_some());
    assert!(cache.peek_at(7, 18 * SECOND).is_some());
    assert!(cache.contains_key_at(7, 19 * SECOND - NANOSECOND));
    assert!(!cache.contains_key_at(7, 19 * SECOND));
}

#[test]
fn there_are_never_more_entries_than_the_capacity() {
    let mut cache = NumberCache::builder().max_capacity(150).build().unwrap();
    for key in 0..1000 {
        cache.insert(key, key).unwrap();
        assert!(cache.len() <= 150);
    }
    assert_eq!(cache.len(), 150);
}

#[test]
fn removed_and_invalidated_entries_are_gone() {
    let mut cache = unlimited();
    for key in 0..10 {
        cache.insert(key, key * key).unwrap();
    }
    assert_eq!(cache.remove(3), Ok(Some(9)));
    assert_eq!(cache.remove(3), Ok(None));
    cache.invalidate(4);
    cache.invalidate_at(4, SECOND);
    assert!(!cache.contains_key(4));
    assert_eq!(cache.len(), 8);
    cache.clear();
    assert_eq!(cache.len(), 0);
}

#[test]
fn a_value_is_made_only_for_a_key_that_has_none() {
    let mut cache = unlimited();
    assert_eq!(cache.get_or_insert(7, 49), Ok(49));
    assert_eq!(cache.get_or_insert(7, 50), Ok(49));
    assert_eq!(cache.get_or_insert_with(7, || unreachable!()), Ok(49));
    assert_eq!(cache.get_or_insert_with(8, || 64), Ok(64));
    assert_eq!(cache.get(8), Some(64));
}

#[test]
fn a_made_value_is_returned_also_where_it_is_rejected() {
    let mut cache = NumberCache::builder().max_capacity(0).build().unwrap();
    assert_eq!(cache.get_or_insert_at(7, 49, SECOND), Ok(49));
    assert_eq!(cache.get_or_insert_with_at(7, || 50, SECOND), Ok(50));
    assert_eq!(cache.len(), 0);
}

#[test]
fn a_rejected_entry_is_told() {
    let mut cache = NumberCache::new(1).unwrap();
    assert_eq!(cache.insert(7, 49), Ok(Inserted::Stored));
    assert_eq!(cache.insert(7, 50), Ok(Inserted::Stored));
    assert_eq!(cache.insert(8, 64), Ok(Inserted::Rejected));
    assert!(cache.contains_key(7) && !cache.contains_key(8));
}

#[test]
fn what_leaves_is_drained() {
    let mut cache = NumberCache::builder().removed_room(2).build().unwrap();
    for (key, value) in [(7, 49), (7, 50), (8, 64)] {
        cache.insert(key, value).unwrap();
    }
    assert_eq!(cache.remove(8), Ok(Some(64)));
    cache.clear();
    let left = |value, cause| Removed {
        key: 7,
        value,
        cause,
    };
    let removed: Vec<_> = cache.removed().collect();
    assert_eq!(
        removed,
        [left(49, Cause::Replaced), left(50, Cause::Explicit)]
    );
    assert!(cache.removed().next().is_none());
    assert_eq!(cache.statistics().lost, 0);
}

#[test]
fn a_new_cache_has_its_capacity_and_shows_its_count() {
    let mut cache = NumberCache::new(150).unwrap();
    assert!(cache.is_empty());
    for key in 0..1000 {
        cache.insert(key, key).unwrap();
    }
    assert_eq!(cache.len(), 150);
    assert_eq!(format!("{cache:?}"), "NumberCache { len: 150, .. }");
    cache.clear();
    assert!(cache.is_empty());
}

#[test]
fn an_iterator_gives_unexpired_pairs_in_order_of_use() {
    let builder = NumberCache::builder().time_to_live(10 * SECOND);
    let mut cache = builder.build().unwrap();
    assert_eq!(cache.iter().next(), None);
    cache.insert_at(7, 49, SECOND).unwrap();
    cache.insert_at(8, 64, Duration::ZERO).unwrap();
    cache.insert_at(9, 81, SECOND).unwrap();
    assert_eq!(cache.get_at(7, SECOND), Some(49));
    let pairs: Vec<_> = cache.iter_at(SECOND).collect();
    assert_eq!(pairs, [(8, 64), (9, 81), (7, 49)]);
    let pairs: Vec<_> = cache.iter_at(10 * SECOND).collect();
    assert_eq!(pairs, [(9, 81), (7, 49)]);
    assert_eq!(cache.len(), 3);
    let mut pairs = cache.iter_at(11 * SECOND);
    assert_eq!(pairs.size_hint(), (0, Some(3)));
    assert_eq!((pairs.next(), pairs.next()), (None, None));
    let mut sum = 0;
    for (key, value) in &mut unlimited_squares() {
        sum += key + value;
    }
    assert_eq!(sum, 3 + 1 + 4);
}

/// Creates a cache of the squares of 1 and 2.
fn unlimited_squares() -> NumberCache {
    let mut cache = unlimited();
    cache.insert(1, 1).unwrap();
    cache.insert(2, 4).unwrap();
    cache
}

#[test]
fn statistics_count_gets_and_inserts_and_what_leaves() {
    let builder = NumberCache::builder().time_to_live(10 * SECOND);
    let mut cache = builder.build().unwrap();
    assert_eq!(cache.statistics(), Statistics::default());
    cache.insert_at(7, 49, Duration::ZERO).unwrap();
    assert_eq!(cache.get_at(7, SECOND), Some(49));
    assert_eq!(cache.get_at(8, SECOND), None);
    assert_eq!(cache.get_or_insert_at(8, 64, SECOND), Ok(64));
    assert_eq!(cache.get_or_insert_at(8, 65, SECOND), Ok(64));
    assert_eq!(cache.peek_at(8, SECOND), Some(64));
    assert_eq!(cache.remove_at(8, SECOND), Ok(Some(64)));
    assert!(!cache.contains_key_at(7, 10 * SECOND));
    let expected = Statistics {
        hits: 2,
        misses: 2,
        inserts: 2,
        expirations: 1,
        removals: 1,
        ..Statistics::default()
    };
    assert_eq!(cache.statistics(), expected);
}

#[test]
fn values_are_weighed_by_their_upper_half() {
    let builder = NumberCache::builder().max_capacity(20).weigh_values();
    assert!(format!("{builder:?}").contains("weigh_values: true"));
    let mut cache = builder.build().unwrap();
    cache.insert(1, (13 << 32) | 7).unwrap();
    cache.insert(2, 7 << 32).unwrap();
    assert_eq!(cache.insert(3, 1 << 32), Ok(Inserted::Rejected));
    assert_eq!((cache.len(), cache.weighted_size()), (2, 20));
    assert_eq!(cache.get(1), Some((13 << 32) | 7));
}
