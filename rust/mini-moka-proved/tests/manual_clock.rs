//! Tests clocks that the program sets.

mod common;

use common::{NANOSECOND, SECOND, START};
use mini_moka_proved::{sync, ByteCache, ManualClock, NumberCache};
use std::thread;
use std::time::Duration;

const LAST: Duration = Duration::from_nanos(u64::MAX);

#[test]
fn a_clock_begins_at_0_and_stops_at_its_last_moment() {
    let clock = ManualClock::new();
    assert_eq!(clock.now(), START);
    clock.advance(SECOND);
    clock.advance(NANOSECOND);
    assert_eq!(clock.now(), SECOND + NANOSECOND);
    clock.set(NANOSECOND);
    assert_eq!(clock.now(), NANOSECOND);
    clock.advance(Duration::MAX);
    assert_eq!(clock.now(), LAST);
    clock.advance(SECOND);
    assert_eq!(clock.now(), LAST);
    clock.set(Duration::MAX);
    assert_eq!(clock.now(), LAST);
    clock.set(START);
    assert_eq!(clock.now(), START);
    assert_eq!(format!("{clock:?}"), "ManualClock(0ns)");
}

#[test]
fn a_clone_is_the_same_clock_and_a_new_one_another() {
    let clock = ManualClock::new();
    let clone = clock.clone();
    clone.set(SECOND);
    assert_eq!(clock.now(), SECOND);
    assert_eq!(ManualClock::new().now(), START);
}

#[test]
fn each_kind_of_cache_reads_the_clock() {
    let clock = ManualClock::new();
    clock.set(5 * SECOND);
    let live = 10 * SECOND;
    let builder = ByteCache::builder().time_to_live(live);
    let mut bytes = builder.manual_clock(&clock).build().unwrap();
    let builder = NumberCache::builder().time_to_live(live);
    let mut numbers = builder.manual_clock(&clock).build().unwrap();
    let builder = sync::ByteCache::builder().time_to_live(live);
    let shared = builder.manual_clock(&clock).build().unwrap();
    bytes.insert("key", "value").unwrap();
    numbers.insert(7, 49).unwrap();
    shared.insert("key", "value").unwrap();
    for (moment, is_there) in [(5, true), (14, true), (15, false), (5, true), (0, true)] {
        clock.set(moment * SECOND);
        assert_eq!(bytes.now(), moment * SECOND);
        assert_eq!(numbers.now(), moment * SECOND);
        assert_eq!(shared.now(), moment * SECOND);
        assert_eq!(bytes.peek("key").is_some(), is_there);
        assert_eq!(numbers.peek(7).is_some(), is_there);
        assert_eq!(shared.peek("key").is_some(), is_there);
    }
}

#[test]
fn an_idle_entry_expires_by_the_clock() {
    let clock = ManualClock::new();
    let builder = ByteCache::builder().time_to_idle(10 * SECOND);
    let mut cache = builder.manual_clock(&clock).build().unwrap();
    cache.insert("key", "value").unwrap();
    for _ in 0..3 {
        clock.advance(10 * SECOND - NANOSECOND);
        assert!(cache.get("key").is_some());
    }
    clock.advance(10 * SECOND);
    assert!(cache.get("key").is_none());
}

#[test]
fn the_clock_that_is_set_last_is_read() {
    let clock = ManualClock::new();
    clock.set(1000 * SECOND);
    let builder = ByteCache::builder().time_to_live(SECOND);
    let manual = builder.clone().coarse_clock().manual_clock(&clock);
    assert_eq!(manual.build().unwrap().now(), 1000 * SECOND);
    let coarse = builder.manual_clock(&clock).coarse_clock();
    assert!(coarse.build().unwrap().now() < 1000 * SECOND);
    let builder = NumberCache::builder().time_to_live(SECOND);
    let coarse = builder.manual_clock(&clock).coarse_clock();
    assert!(coarse.build().unwrap().now() < 1000 * SECOND);
}

#[test]
fn a_cache_without_durations_has_the_clock_too() {
    let clock = ManualClock::new();
    let cache = ByteCache::builder().manual_clock(&clock).build().unwrap();
    let numbers = NumberCache::builder().manual_clock(&clock).build().unwrap();
    let shared = sync::ByteCache::builder()
        .manual_clock(&clock)
        .build()
        .unwrap();
    clock.set(SECOND);
    assert_eq!([cache.now(), numbers.now(), shared.now()], [SECOND; 3]);
}

#[test]
fn each_thread_moves_the_clock() {
    let clock = ManualClock::new();
    let threads: Vec<_> = (0..4)
        .map(|_| {
            let clock = clock.clone();
            thread::spawn(move || (0..1000).for_each(|_| clock.advance(NANOSECOND)))
        })
        .collect();
    for thread in threads {
        thread.join().unwrap();
    }
    assert_eq!(clock.now(), 4000 * NANOSECOND);
}
