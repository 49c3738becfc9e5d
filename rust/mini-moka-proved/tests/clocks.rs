//! Tests which clock a cache reads, and that each call reads it.

mod common;

use common::{NANOSECOND, SECOND, START};
use mini_moka_proved::{sync, ByteCache, Cause, NumberCache};
use std::thread::sleep;
use std::time::Duration;

const HOUR: Duration = Duration::from_secs(3600);
const NAP: Duration = Duration::from_millis(20);

#[test]
fn the_clock_stands_if_there_is_no_duration() {
    let bytes = ByteCache::builder().coarse_clock().build().unwrap();
    let shared = sync::ByteCache::new(9).unwrap();
    let numbers = NumberCache::new(9).unwrap();
    sleep(Duration::from_millis(1));
    assert_eq!(
        (bytes.now(), shared.now(), numbers.now()),
        (START, START, START)
    );
}

#[test]
fn an_entry_expires_by_the_clock_in_each_call() {
    let mut bytes = ByteCache::builder().time_to_live(NAP).build().unwrap();
    let mut numbers = NumberCache::builder().time_to_live(NAP).build().unwrap();
    let shared = sync::ByteCache::builder()
        .time_to_live(NAP)
        .build()
        .unwrap();
    let mut buffer = Vec::new();
    for key in 0..9u8 {
        bytes.insert_at([key], [key], START).unwrap();
        numbers.insert_at(key.into(), 1, START).unwrap();
        shared.insert_at([key], [key], START).unwrap();
    }
    sleep(NAP);
    // A walk and a peek remove nothing, so each later call finds expired entries.
    let met = (bytes.iter().count(), numbers.iter().count());
    assert_eq!((met, shared.iter().count()), ((0, 0), 0));
    assert_eq!((bytes.peek([1]), numbers.peek(1)), (None, None));
    assert_eq!(shared.peek([1]), None);
    assert_eq!((bytes.len(), numbers.len(), shared.len()), (9, 9, 9));
    assert_eq!((bytes.remove([2]), numbers.remove(2)), (Ok(None), Ok(None)));
    assert_eq!(shared.remove([2]), Ok(None));
    assert!(!bytes.contains_key([3]) && !numbers.contains_key(3) && !shared.contains_key([3]));
    assert_eq!((bytes.get([4]), numbers.get(4)), (None, None));
    assert_eq!(shared.get([4]), None);
    let tried = (bytes.try_get([5]), shared.try_get([5]));
    assert_eq!(tried, (Ok(None), Ok(None)));
    assert_eq!(bytes.get_into([6], &mut buffer), Ok(false));
    assert_eq!(shared.get_into([6], &mut buffer), Ok(false));
    assert_eq!(bytes.get_or_insert_with([7], || vec![9]), Ok(vec![9]));
    assert_eq!(shared.get_or_insert_with([7], || vec![9]), Ok(vec![9]));
    assert_eq!(numbers.get_or_insert_with(7, || 9), Ok(9));
    assert_eq!(numbers.get_or_insert(8, 9), Ok(9));
}

// A call that finds nothing removes what is expired, so in these tests each has its own cache.
#[test]
fn each_call_alone_reads_the_clock() {
    let bytes: [fn(&mut ByteCache) -> bool; 6] = [
        |cache| cache.get([1]).is_none(),
        |cache| cache.try_get([1]) == Ok(None),
        |cache| cache.get_into([1], &mut Vec::new()) == Ok(false),
        |cache| !cache.contains_key([1]),
        |cache| cache.remove([1]) == Ok(None),
        |cache| cache.get_or_insert_with([1], || vec![2]) == Ok(vec![2]),
    ];
    let shared: [fn(&sync::ByteCache) -> bool; 6] = [
        |cache| cache.get([1]).is_none(),
        |cache| cache.try_get([1]) == Ok(None),
        |cache| cache.get_into([1], &mut Vec::new()) == Ok(false),
        |cache| !cache.contains_key([1]),
        |cache| cache.remove([1]) == Ok(None),
        |cache| cache.get_or_insert_with([1], || vec![2]) == Ok(vec![2]),
    ];
    let numbers: [fn(&mut NumberCache) -> bool; 5] = [
        |cache| cache.get(1).is_none(),
        |cache| !cache.contains_key(1),
        |cache| cache.remove(1) == Ok(None),
        |cache| cache.get_or_insert(1, 2) == Ok(2),
        |cache| cache.get_or_insert_with(1, || 2) == Ok(2),
    ];
    let live = Duration::from_millis(1);
    for call in bytes {
        let mut cache = ByteCache::builder().time_to_live(live).build().unwrap();
        cache.insert_at([1], [1], START).unwrap();
        sleep(live);
        assert!(call(&mut cache));
    }
    for call in shared {
        let cache = sync::ByteCache::builder()
            .time_to_live(live)
            .build()
            .unwrap();
        cache.insert_at([1], [1], START).unwrap();
        sleep(live);
        assert!(call(&cache));
    }
    for call in numbers {
        let mut cache = NumberCache::builder().time_to_live(live).build().unwrap();
        cache.insert_at(1, 1, START).unwrap();
        sleep(live);
        assert!(call(&mut cache));
    }
}

#[test]
fn each_call_alone_takes_its_moment() {
    let bytes: [fn(&mut ByteCache, Duration) -> bool; 7] = [
        |cache, now| cache.get_at([1], now).is_some(),
        |cache, now| cache.try_get_at([1], now).unwrap().is_some(),
        |cache, now| cache.get_into_at([1], &mut Vec::new(), now).unwrap(),
        |cache, now| cache.contains_key_at([1], now),
        |cache, now| cache.remove_at([1], now).unwrap().is_some(),
        |cache, now| cache.iter_at(now).next().is_some(),
        |cache, now| cache.get_or_insert_with_at([1], || vec![2], now) == Ok(vec![1]),
    ];
    let numbers: [fn(&mut NumberCache, Duration) -> bool; 6] = [
        |cache, now| cache.get_at(1, now).is_some(),
        |cache, now| cache.contains_key_at(1, now),
        |cache, now| cache.remove_at(1, now).unwrap().is_some(),
        |cache, now| cache.iter_at(now).next().is_some(),
        |cache, now| cache.get_or_insert_at(1, 2, now) == Ok(1),
        |cache, now| cache.get_or_insert_with_at(1, || 2, now) == Ok(1),
    ];
    for (now, is_there) in [(HOUR - NANOSECOND, true), (HOUR, false)] {
        for call in bytes {
            let mut cache = ByteCache::builder().time_to_live(HOUR).build().unwrap();
            cache.insert_at([1], [1], START).unwrap();
            assert_eq!(call(&mut cache, now), is_there);
        }
        for call in numbers {
            let mut cache = NumberCache::builder().time_to_live(HOUR).build().unwrap();
            cache.insert_at(1, 1, START).unwrap();
            assert_eq!(call(&mut cache, now), is_there);
        }
    }
}

#[test]
fn an_invalidation_reads_the_clock() {
    let mut bytes = ByteCache::builder()
        .time_to_live(NAP)
        .removed_room(1)
        .build();
    let bytes = bytes.as_mut().unwrap();
    let builder = NumberCache::builder().time_to_live(NAP).removed_room(1);
    let mut numbers = builder.build().unwrap();
    let builder = sync::ByteCache::builder().time_to_live(NAP).removed_room(1);
    let shared = builder.build().unwrap();
    bytes.insert_at("key", "value", START).unwrap();
    numbers.insert_at(7, 49, START).unwrap();
    shared.insert_at("key", "value", START).unwrap();
    sleep(NAP);
    bytes.invalidate("key");
    numbers.invalidate(7);
    shared.invalidate("key");
    let cause = bytes.removed().next().unwrap().unwrap().cause;
    assert_eq!(cause, Cause::Expired);
    assert_eq!(numbers.removed().next().unwrap().cause, Cause::Expired);
    let cause = shared.removed().next().unwrap().unwrap().cause;
    assert_eq!(cause, Cause::Expired);
}

#[test]
fn an_insert_reads_the_clock() {
    let mut bytes = ByteCache::builder().time_to_live(HOUR).build().unwrap();
    let mut numbers = NumberCache::builder().time_to_live(HOUR).build().unwrap();
    let shared = sync::ByteCache::builder()
        .time_to_live(HOUR)
        .build()
        .unwrap();
    sleep(Duration::from_millis(1));
    let before = (bytes.now(), numbers.now(), shared.now());
    bytes.insert("key", "value").unwrap();
    numbers.insert(7, 49).unwrap();
    numbers.get_or_insert(8, 64).unwrap();
    shared.insert("key", "value").unwrap();
    let last = HOUR - NANOSECOND;
    assert!(bytes.peek_at("key", before.0 + last).is_some());
    assert!(numbers.peek_at(7, before.1 + last).is_some());
    assert!(numbers.peek_at(8, before.1 + last).is_some());
    assert!(shared.peek_at("key", before.2 + last).is_some());
}

#[test]
fn a_get_reads_the_clock() {
    let mut bytes = ByteCache::builder().time_to_idle(HOUR).build().unwrap();
    let mut numbers = NumberCache::builder().time_to_idle(HOUR).build().unwrap();
    let shared = sync::ByteCache::builder()
        .time_to_idle(HOUR)
        .build()
        .unwrap();
    for key in 0..4u8 {
        bytes.insert_at([key], [key], START).unwrap();
        numbers.insert_at(key.into(), 1, START).unwrap();
        shared.insert_at([key], [key], START).unwrap();
    }
    sleep(Duration::from_millis(1));
    let before = (bytes.now(), numbers.now(), shared.now());
    let mut buffer = Vec::new();
    assert!(bytes.get([0]).is_some() && shared.get([0]).is_some() && numbers.get(0).is_some());
    assert!(bytes.try_get([1]).is_ok() && shared.try_get([1]).is_ok());
    assert_eq!(numbers.get_or_insert(1, 2), Ok(1));
    assert_eq!(bytes.get_into([2], &mut buffer), Ok(true));
    assert_eq!(shared.get_into([2], &mut buffer), Ok(true));
    assert_eq!(numbers.get_or_insert_with(2, || 2), Ok(1));
    assert_eq!(bytes.get_or_insert_with([3], Vec::new), Ok(vec![3]));
    assert_eq!(shared.get_or_insert_with([3], Vec::new), Ok(vec![3]));
    let last = HOUR - NANOSECOND;
    for key in 0..4u8 {
        assert!(bytes.peek_at([key], before.0 + last).is_some());
        assert!(shared.peek_at([key], before.2 + last).is_some());
    }
    for key in 0..3 {
        assert!(numbers.peek_at(key, before.1 + last).is_some());
    }
}

#[test]
fn a_made_value_lives_from_when_it_was_made() {
    let mut bytes = ByteCache::builder().time_to_live(HOUR).build().unwrap();
    let mut numbers = NumberCache::builder().time_to_live(HOUR).build().unwrap();
    let shared = sync::ByteCache::builder()
        .time_to_live(HOUR)
        .build()
        .unwrap();
    let make = || {
        sleep(NAP);
        b"value".to_vec()
    };
    // An entry that was written before `make` is expired at the end.
    let end = |before| before + HOUR + NAP / 2;
    let before = bytes.now();
    bytes.get_or_insert_with("key", make).unwrap();
    assert!(bytes.contains_key_at("key", end(before)));
    let before = shared.now();
    shared.get_or_insert_with("key", make).unwrap();
    assert!(shared.contains_key_at("key", end(before)));
    let before = numbers.now();
    let made = numbers.get_or_insert_with(7, || {
        sleep(NAP);
        49
    });
    assert_eq!(made, Ok(49));
    assert!(numbers.contains_key_at(7, end(before)));
}

#[test]
fn a_made_value_is_inserted_at_the_moment_that_is_passed() {
    let live = 10 * SECOND;
    let mut bytes = ByteCache::builder().time_to_live(live).build().unwrap();
    let mut numbers = NumberCache::builder().time_to_live(live).build().unwrap();
    let shared = sync::ByteCache::builder()
        .time_to_live(live)
        .build()
        .unwrap();
    let make = || b"value".to_vec();
    bytes.get_or_insert_with_at("key", make, HOUR).unwrap();
    shared.get_or_insert_with_at("key", make, HOUR).unwrap();
    assert_eq!(numbers.get_or_insert_with_at(7, || 49, HOUR), Ok(49));
    assert_eq!(numbers.get_or_insert_at(8, 64, HOUR), Ok(64));
    let (last, end) = (HOUR + live - NANOSECOND, HOUR + live);
    assert!(bytes.peek_at("key", last).is_some() && bytes.peek_at("key", end).is_none());
    assert!(shared.peek_at("key", last).is_some() && shared.peek_at("key", end).is_none());
    for key in [7, 8] {
        assert!(numbers.peek_at(key, last).is_some() && numbers.peek_at(key, end).is_none());
    }
}

#[test]
fn an_entry_expires_by_the_coarse_clock() {
    let live = Duration::from_millis(50);
    let builder = ByteCache::builder().time_to_live(live).coarse_clock();
    let mut cache = builder.build().unwrap();
    let before = cache.now();
    cache.insert("key", "value").unwrap();
    assert!(cache.peek_at("key", before).is_some());
    // The clock may lag by 10 ms at its start and at the end.
    sleep(live + Duration::from_millis(20));
    assert!(!cache.contains_key("key"));
    assert!(cache.now() >= live && cache.now() < HOUR);
}

/// Returns the number of different moments among 1000 readings of a clock.
#[cfg(all(target_os = "linux", target_pointer_width = "64"))]
fn ticks(read: impl Fn() -> Duration) -> usize {
    let mut moments: Vec<_> = (0..1000).map(|_| read()).collect();
    moments.dedup();
    moments.len()
}

#[cfg(all(target_os = "linux", target_pointer_width = "64"))]
#[test]
fn a_coarse_clock_stands_between_ticks_and_a_precise_one_does_not() {
    let bytes = ByteCache::builder().time_to_live(HOUR);
    let numbers = NumberCache::builder().time_to_live(HOUR);
    let shared = sync::ByteCache::builder().time_to_live(HOUR);
    let of = |bytes: ByteCache, numbers: NumberCache, shared: sync::ByteCache| {
        let bytes = ticks(|| bytes.now());
        [bytes, ticks(|| numbers.now()), ticks(|| shared.now())]
    };
    let coarse = of(
        bytes.clone().coarse_clock().build().unwrap(),
        numbers.clone().coarse_clock().build().unwrap(),
        shared.clone().coarse_clock().build().unwrap(),
    );
    assert!(coarse.iter().all(|&count| count < 500), "{coarse:?}");
    let precise = of(
        bytes.build().unwrap(),
        numbers.build().unwrap(),
        shared.build().unwrap(),
    );
    assert!(precise.iter().all(|&count| count > 500), "{precise:?}");
}
