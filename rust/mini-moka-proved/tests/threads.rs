//! Tests caches that threads share, in segments or behind one lock, and one that moves to another
//! thread.

use mini_moka_proved::{sync, ByteCache, Cause, NumberCache};
use std::sync::{Arc, Mutex};
use std::thread;

const THREADS: u64 = 4;
const KEYS: u64 = 1000;

fn may_go_to_another_thread<T: Send>() {}
fn may_be_shared<T: Send + Sync>() {}

#[test]
fn caches_are_send_and_locked_ones_are_sync() {
    may_go_to_another_thread::<ByteCache>();
    may_go_to_another_thread::<NumberCache>();
    may_be_shared::<Mutex<ByteCache>>();
    may_be_shared::<Mutex<NumberCache>>();
    may_be_shared::<sync::ByteCache>();
}

#[test]
fn each_thread_sees_what_all_have_inserted() {
    let cache = Arc::new(Mutex::new(ByteCache::builder().build().unwrap()));
    let fill = |number: u64| {
        let cache = Arc::clone(&cache);
        thread::spawn(move || {
            for key in 0..KEYS {
                let key = (number * KEYS + key).to_le_bytes();
                cache.lock().unwrap().insert(key, key).unwrap();
                assert_eq!(cache.lock().unwrap().get(key), Some(key.to_vec()));
            }
        })
    };
    let threads: Vec<_> = (0..THREADS).map(fill).collect();
    for thread in threads {
        thread.join().unwrap();
    }
    let mut cache = cache.lock().unwrap();
    for key in 0..THREADS * KEYS {
        assert!(cache.contains_key(key.to_le_bytes()));
    }
    assert_eq!(cache.len() as u64, THREADS * KEYS);
    assert_eq!(cache.statistics().hits, THREADS * KEYS);
}

#[test]
fn a_cache_is_used_and_dropped_by_another_thread() {
    let mut cache = NumberCache::builder().build().unwrap();
    cache.insert(7, 49).unwrap();
    let found = thread::spawn(move || cache.get(7)).join().unwrap();
    assert_eq!(found, Some(49));
}

#[test]
fn each_thread_finds_its_keys_in_a_shared_cache() {
    let cache = sync::ByteCache::builder().build().unwrap();
    let fill = |number: u64| {
        let cache = cache.clone();
        thread::spawn(move || {
            for key in 0..KEYS {
                let key = (number * KEYS + key).to_le_bytes();
                cache.insert(key, key).unwrap();
                assert_eq!(cache.get(key), Some(key.to_vec()));
                let common = cache.get_or_insert_with("common", || b"made".to_vec());
                assert_eq!(common.unwrap(), b"made");
            }
        })
    };
    let threads: Vec<_> = (0..THREADS).map(fill).collect();
    for thread in threads {
        thread.join().unwrap();
    }
    assert!((0..THREADS * KEYS).all(|key| cache.contains_key(key.to_le_bytes())));
    assert_eq!(cache.len() as u64, THREADS * KEYS + 1);
}

#[test]
fn a_value_that_panics_harms_no_segment() {
    let cache = sync::ByteCache::new(100).unwrap();
    cache.insert("other", "value").unwrap();
    let other = cache.clone();
    let panicked =
        thread::spawn(move || other.get_or_insert_with("key", || panic!("a test panic")));
    assert!(panicked.join().is_err());
    assert_eq!(cache.get("other"), Some(b"value".to_vec()));
    assert_eq!(
        cache
            .get_or_insert_with("key", || b"made".to_vec())
            .unwrap(),
        b"made"
    );
}

#[test]
fn threads_drain_each_entry_once() {
    let builder = sync::ByteCache::builder().segments(4);
    let cache = builder.removed_room(4000).build().unwrap();
    for key in 0..1000u64 {
        cache.insert(key.to_le_bytes(), key.to_le_bytes()).unwrap();
    }
    cache.clear();
    let drain = || {
        let cache = cache.clone();
        thread::spawn(move || {
            let removed = cache.removed().map(Result::unwrap);
            let keys = removed.map(|it| {
                assert_eq!((&it.key, it.cause), (&it.value, Cause::Explicit));
                it.key
            });
            keys.collect::<Vec<_>>()
        })
    };
    let threads: Vec<_> = (0..THREADS).map(|_| drain()).collect();
    let mut keys: Vec<_> = threads
        .into_iter()
        .flat_map(|thread| thread.join().unwrap())
        .collect();
    keys.sort_unstable();
    keys.dedup();
    assert_eq!(keys.len(), 1000);
    assert_eq!(cache.statistics().lost, 0);
    // Each segment queues one entry.
    let cache = sync::ByteCache::builder()
        .segments(4)
        .removed_room(3)
        .build();
    let cache = cache.unwrap();
    for key in 0..100u8 {
        cache.insert([key], [key]).unwrap();
    }
    cache.clear();
    assert_eq!((cache.removed().count(), cache.statistics().lost), (4, 96));
}
