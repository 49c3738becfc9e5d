//! Tests typed caches at the ends of their settings, and with unusual keys, values and iterators.

mod common;

use common::{Remainder, SECOND};
use mini_moka_proved::{sync, BuildError, Cache, Insertion, ManualClock, ValueRef};
use std::mem::forget;
use std::time::Duration;

#[test]
fn a_cache_of_no_capacity_keeps_nothing() {
    let mut cache = Cache::new(0);
    assert_eq!(cache.insert("a", 1), Insertion::Rejected);
    assert_eq!(cache.get_or_insert_with("a", || 2), ValueRef::Rejected(2));
    assert!(cache.is_empty() && cache.iter().next().is_none());
    let shared = sync::Cache::new(0);
    assert_eq!(shared.insert("a", 1), Insertion::Rejected);
    assert_eq!((shared.get_with("a", || 2), shared.get(&"a")), (2, None));
    assert_eq!((shared.segments(), shared.len()), (1, 0));
}

#[test]
fn most_segments_keep_no_more_than_the_capacity() {
    let builder = sync::Cache::builder().max_capacity(3).segments(usize::MAX);
    let cache = builder.build();
    assert_eq!(cache.segments(), 65_536);
    for number in 0..2000 {
        cache.insert(number, number);
    }
    assert!(cache.len() <= 3);
}

#[test]
fn the_largest_settings_are_taken() {
    let longest = Duration::from_nanos(u64::MAX - 1);
    let clock = ManualClock::new();
    let mut cache = Cache::builder()
        .max_capacity(u64::MAX)
        .time_to_live(longest)
        .time_to_idle(longest)
        .manual_clock(&clock)
        .build();
    assert_eq!(cache.insert(1, "one"), Insertion::New);
    clock.set(longest - Duration::from_nanos(1));
    assert_eq!(cache.get(&1), Some(&"one"));
    clock.set(longest);
    assert_eq!(cache.get(&1), None);
    let too_long = Cache::<u64, u64>::builder().time_to_live(longest + Duration::from_nanos(1));
    assert_eq!(
        too_long.try_build().map(drop),
        Err(BuildError::DurationTooLong)
    );
}

#[test]
fn values_and_keys_may_have_no_size() {
    let mut cache = Cache::new(10);
    assert_eq!(cache.insert((), ()), Insertion::New);
    assert_eq!(cache.insert((), ()), Insertion::Replaced(()));
    assert_eq!((cache.len(), cache.get(&())), (1, Some(&())));
    assert_eq!((cache.remove(&()), cache.remove(&())), (Some(()), None));
}

#[test]
fn an_iterator_that_is_forgotten_leaves_a_usable_cache() {
    let mut cache = Cache::new(100);
    for number in 0..50 {
        cache.insert(number, number);
    }
    let mut iter = cache.iter();
    iter.next();
    forget(iter);
    cache.insert(60, 60);
    assert_eq!(cache.iter().count(), 51);
    let (mut one, mut other) = (cache.iter(), cache.iter());
    assert_eq!((one.next(), one.next()), (other.next(), other.next()));
    assert_eq!(cache.peek(&60), Some(&60));
    assert_eq!((one.count(), other.count()), (49, 49));
}

#[test]
fn many_keys_may_have_one_hash() {
    let mut cache = Cache::builder().build_with_hasher(Remainder(1));
    for number in 0..500u64 {
        assert_eq!(cache.insert(number, number), Insertion::New);
    }
    for number in (0..500).step_by(3) {
        assert_eq!(cache.remove(&number), Some(number));
    }
    for number in 0..500 {
        let wanted = (number % 3 > 0).then_some(number);
        assert_eq!(cache.get(&number).copied(), wanted);
        let insertion = cache.insert(number, number + 1);
        assert_eq!(
            insertion,
            wanted.map_or(Insertion::New, Insertion::Replaced)
        );
    }
    assert_eq!(cache.len(), 500);
}

#[test]
fn a_clock_that_runs_lets_entries_expire() {
    let mut cache = Cache::builder().time_to_live(SECOND / 100).build();
    cache.insert(1, 1);
    let shared = sync::Cache::builder().time_to_idle(SECOND / 100).build();
    shared.insert(1, 1);
    std::thread::sleep(SECOND / 50);
    assert_eq!((cache.get(&1), shared.get(&1)), (None, None));
    assert!(cache.now() >= SECOND / 50 && shared.now() >= SECOND / 50);
    assert_eq!(Cache::<u64, u64>::new(1).now(), Duration::ZERO);
}
