//! Tests the shares of a cache's parts, and caches whose window adapts.

mod common;

use common::Random;
use mini_moka_proved::{sync, BuildError, ByteCache, Cause, Inserted, NumberCache};
use std::collections::HashMap;
use std::time::Duration;

#[test]
fn a_share_above_100_is_refused_by_name() {
    let refused = Err(BuildError::ShareTooLarge);
    for percent in [101, u8::MAX] {
        let built = [
            ByteCache::builder().window_share(percent).build().map(drop),
            ByteCache::builder()
                .protected_share(percent)
                .build()
                .map(drop),
            NumberCache::builder()
                .window_share(percent)
                .build()
                .map(drop),
            NumberCache::builder()
                .protected_share(percent)
                .build()
                .map(drop),
            sync::ByteCache::builder()
                .window_share(percent)
                .build()
                .map(drop),
            sync::ByteCache::builder()
                .protected_share(percent)
                .build()
                .map(drop),
            ByteCache::builder()
                .adaptive()
                .window_share(percent)
                .build()
                .map(drop),
        ];
        assert_eq!(built, [refused; 7]);
    }
}

#[test]
fn a_share_of_100_is_taken() {
    let bytes = ByteCache::builder()
        .max_capacity(300)
        .window_share(100)
        .protected_share(100);
    let numbers = NumberCache::builder()
        .max_capacity(300)
        .window_share(100)
        .protected_share(100);
    let shared = sync::ByteCache::builder()
        .max_capacity(300)
        .window_share(100)
        .protected_share(100);
    assert_eq!(bytes.build().unwrap().window_capacity(), 300);
    assert_eq!(numbers.build().unwrap().window_capacity(), 300);
    assert_eq!(shared.segments(7).build().unwrap().window_capacity(), 300);
}

#[test]
fn a_duration_of_0_is_reported_before_a_share_above_100() {
    let builder = ByteCache::builder()
        .window_share(101)
        .time_to_idle(Duration::ZERO);
    assert_eq!(builder.build().unwrap_err(), BuildError::ZeroDuration);
}

#[test]
fn a_share_that_is_set_after_adaptive_changes_where_it_begins() {
    let window = |builder: mini_moka_proved::ByteBuilder| {
        let cache = builder.max_capacity(1000).build().unwrap();
        cache.window_capacity()
    };
    assert_eq!(window(ByteCache::builder()), 10);
    assert_eq!(window(ByteCache::builder().adaptive()), 10);
    assert_eq!(window(ByteCache::builder().window_share(20)), 200);
    assert_eq!(
        window(ByteCache::builder().adaptive().window_share(20)),
        200
    );
    assert_eq!(window(ByteCache::builder().window_share(20).adaptive()), 10);
    assert_eq!(
        window(ByteCache::builder().window_share(0).weigh_bytes()),
        0
    );
    assert_eq!(ByteCache::builder().build().unwrap().window_capacity(), 0);
}

/// Inserts keys into a cache of ten entries, uses the first three, and returns its keys in the order
/// of `iter`.
fn order(window: u8, protected: u8, inserted: u64) -> Vec<u64> {
    let mut cache = NumberCache::builder()
        .max_capacity(10)
        .window_share(window)
        .protected_share(protected)
        .build()
        .unwrap();
    for key in 0..9 {
        cache.insert(key, key).unwrap();
    }
    for key in 0..3 {
        cache.get(key);
    }
    for key in 9..inserted {
        cache.insert(key, key).unwrap();
    }
    cache.iter().map(|(key, _)| key).collect()
}

#[test]
fn a_protected_entry_leaves_after_all_others() {
    assert_eq!(order(0, 0, 10), [3, 4, 5, 6, 7, 8, 0, 1, 2, 9]);
    assert_eq!(order(0, 20, 10), [3, 4, 5, 6, 7, 8, 0, 9, 1, 2]);
    assert_eq!(order(0, 100, 10), [3, 4, 5, 6, 7, 8, 9, 0, 1, 2]);
}

#[test]
fn a_cache_that_is_all_window_keeps_what_was_used_last() {
    assert_eq!(order(100, 0, 12), [5, 6, 7, 8, 0, 1, 2, 9, 10, 11]);
    assert_eq!(order(0, 0, 12), [3, 4, 5, 6, 7, 8, 0, 1, 2, 9]);
}

#[test]
fn the_shares_reach_caches_of_bytes_and_segments() {
    let all_window = ByteCache::builder().max_capacity(2).window_share(100);
    let mut cache = all_window.build().unwrap();
    let shared = sync::ByteCache::builder()
        .max_capacity(2)
        .segments(1)
        .window_share(100);
    let shared = shared.build().unwrap();
    for key in 0..5u8 {
        assert_eq!(cache.insert([key], [key]), Ok(Inserted::Stored));
        assert_eq!(shared.insert([key], [key]), Ok(Inserted::Stored));
    }
    assert!(cache.contains_key([4]) && shared.contains_key([4]));
    let protected = ByteCache::builder()
        .max_capacity(3)
        .window_share(0)
        .protected_share(100);
    let mut cache = protected.build().unwrap();
    let shared = sync::ByteCache::builder().max_capacity(3).segments(1);
    let shared = shared.window_share(0).protected_share(100).build().unwrap();
    for key in 0..2u8 {
        cache.insert([key], [key]).unwrap();
        shared.insert([key], [key]).unwrap();
    }
    assert!(cache.get([0]).is_some() && shared.get([0]).is_some());
    cache.insert([2], [2]).unwrap();
    shared.insert([2], [2]).unwrap();
    let keys = [vec![1], vec![2], vec![0]];
    assert!(cache.iter().map(|pair| pair.unwrap().0).eq(keys.clone()));
    assert!(shared.iter().map(|pair| pair.unwrap().0).eq(keys));
}

/// Inserts 10,000 keys, each again when 20 others were inserted.
fn insert_again(mut insert: impl FnMut(u64) -> Inserted) {
    for key in 0..10_000 {
        insert(key);
        if key >= 20 {
            insert(key - 20);
        }
    }
}

#[test]
fn a_window_grows_only_if_the_cache_is_adaptive() {
    let fixed = ByteCache::builder().max_capacity(1000).build().unwrap();
    let adaptive = ByteCache::builder().max_capacity(1000).adaptive().build();
    for (mut cache, least, most) in [(fixed, 10, 10), (adaptive.unwrap(), 20, 80)] {
        insert_again(|key| cache.insert(key.to_le_bytes(), []).unwrap());
        assert!((least..=most).contains(&cache.window_capacity()));
        assert_eq!(cache.len(), 1000);
    }
    let fixed = NumberCache::builder().max_capacity(1000).build().unwrap();
    let adaptive = NumberCache::builder().max_capacity(1000).adaptive().build();
    for (mut cache, least, most) in [(fixed, 10, 10), (adaptive.unwrap(), 20, 80)] {
        insert_again(|key| cache.insert(key, key).unwrap());
        assert!((least..=most).contains(&cache.window_capacity()));
        assert_eq!(cache.len(), 1000);
    }
}

#[test]
fn the_window_of_a_shared_cache_is_the_sum_of_its_segments() {
    let builder = sync::ByteCache::builder().max_capacity(1000).segments(4);
    let fixed = builder.clone().build().unwrap();
    let adaptive = builder.adaptive().build().unwrap();
    assert_eq!(
        (fixed.window_capacity(), adaptive.window_capacity()),
        (8, 8)
    );
    for cache in [&fixed, &adaptive] {
        insert_again(|key| cache.insert(key.to_le_bytes(), []).unwrap());
    }
    assert_eq!(fixed.window_capacity(), 8);
    assert!((20..=100).contains(&adaptive.window_capacity()));
}

#[test]
fn an_adaptive_cache_loses_no_removed_entry() {
    let mut random = Random(5);
    let builder = NumberCache::builder().max_capacity(200).adaptive();
    let mut cache = builder.removed_room(10).build().unwrap();
    let mut there = HashMap::new();
    let mut windows = (u64::MAX, 0);
    for step in 0..50_000u64 {
        let key = match random.below(3) {
            0 => random.below(50),
            1 => step.saturating_sub(random.below(60)),
            _ => step,
        };
        if cache.get(key).is_none() {
            assert!(!there.contains_key(&key));
            assert_eq!(cache.insert(key, step), Ok(Inserted::Stored));
            there.insert(key, step);
        }
        for removed in cache.removed() {
            assert_eq!(there.remove(&removed.key), Some(removed.value));
            assert_eq!(removed.cause, Cause::Size);
        }
        assert!(cache.len() == there.len() && cache.len() <= 200);
        let window = cache.window_capacity();
        windows = (windows.0.min(window), windows.1.max(window));
    }
    assert_eq!(windows.0, 2);
    assert!(windows.1 > 20);
    assert_eq!(cache.statistics().lost, 0);
}
