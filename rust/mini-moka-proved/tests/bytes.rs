//! Tests each call of the cache of bytes.

mod common;

use common::{bytes, NANOSECOND, SECOND, START};
use mini_moka_proved::{ByteCache, Inserted};
use std::time::Duration;

/// Creates a cache without limits.
fn unlimited() -> ByteCache {
    ByteCache::builder().build().unwrap()
}

#[test]
fn the_value_last_inserted_is_found() {
    let mut cache = unlimited();
    cache.insert(b"key", b"first").unwrap();
    cache.insert(b"key", b"second").unwrap();
    assert_eq!(cache.get(b"key"), Some(b"second".to_vec()));
    assert_eq!(cache.get(b"other"), None);
    assert_eq!(cache.len(), 1);
}

#[test]
fn an_empty_key_and_an_empty_value_are_kept() {
    let mut cache = unlimited();
    cache.insert(b"", b"of nothing").unwrap();
    cache.insert(b"key", b"").unwrap();
    assert_eq!(cache.get(b""), Some(b"of nothing".to_vec()));
    assert_eq!(cache.get(b"key"), Some(Vec::new()));
    assert_eq!(cache.peek(b"key"), Some(Vec::new()));
    assert_eq!(cache.remove(b"key").unwrap(), Some(Vec::new()));
    assert_eq!(cache.remove(b"").unwrap(), Some(b"of nothing".to_vec()));
    assert_eq!(cache.len(), 0);
}

#[test]
fn a_key_of_1_mib_is_told_from_another() {
    let mut cache = unlimited();
    let long = bytes(1 << 20);
    let mut other = long.clone();
    other[(1 << 20) - 1] ^= 1;
    cache.insert(&long, b"long").unwrap();
    assert_eq!(cache.get(&long), Some(b"long".to_vec()));
    assert_eq!(cache.get(&other), None);
    cache.invalidate(&long);
    assert!(!cache.contains_key(&long));
}

#[test]
fn a_value_of_any_length_is_found_by_one_get() {
    for length in [0, 1, 255, 256, 257, 1 << 20] {
        let mut cache = unlimited();
        let value = bytes(length);
        cache.insert(b"key", &value).unwrap();
        assert_eq!(cache.get(b"key"), Some(value.clone()));
        assert_eq!(cache.peek(b"key"), Some(value.clone()));
        assert_eq!(cache.statistics().hits, 1);
        assert_eq!(cache.statistics().misses, 0);
        assert_eq!(cache.remove(b"key").unwrap(), Some(value));
    }
}

#[test]
fn a_short_buffer_grows_and_the_get_is_counted_once() {
    let mut cache = unlimited();
    let value = bytes(1000);
    cache.insert(b"key", &value).unwrap();
    let mut buffer = bytes(10);
    assert!(cache.get_into(b"key", &mut buffer).unwrap());
    assert_eq!(buffer, value);
    assert_eq!(cache.statistics().hits, 1);
}

#[test]
fn a_long_buffer_stays_where_it_is() {
    let mut cache = unlimited();
    cache.insert(b"key", b"value").unwrap();
    let mut buffer = Vec::with_capacity(5);
    let (place, capacity) = (buffer.as_ptr(), buffer.capacity());
    assert!(cache.get_into(b"key", &mut buffer).unwrap());
    assert_eq!(buffer, b"value");
    assert_eq!((buffer.as_ptr(), buffer.capacity()), (place, capacity));
}

#[test]
fn a_miss_leaves_the_buffer_empty() {
    let mut cache = unlimited();
    let mut buffer = b"of another user".to_vec();
    assert!(!cache.get_into(b"key", &mut buffer).unwrap());
    assert_eq!(buffer, b"");
    assert_eq!(cache.statistics().misses, 1);
}

#[test]
fn an_entry_expires_at_the_end_of_its_time_to_live() {
    let mut cache = ByteCache::builder()
        .time_to_live(10 * SECOND)
        .build()
        .unwrap();
    let mut buffer = Vec::new();
    cache.insert_at(b"key", b"value", SECOND).unwrap();
    let last = 11 * SECOND - NANOSECOND;
    assert!(cache.contains_key_at(b"key", last));
    assert_eq!(cache.get_at(b"key", last), Some(b"value".to_vec()));
    assert!(cache.get_into_at(b"key", &mut buffer, last).unwrap());
    assert_eq!(cache.peek_at(b"key", last), Some(b"value".to_vec()));

    let end = 11 * SECOND;
    assert_eq!(cache.peek_at(b"key", end), None);
    assert_eq!(cache.remove_at(b"key", end).unwrap(), None);
    assert!(!cache.get_into_at(b"key", &mut buffer, end).unwrap());
    assert_eq!(cache.get_at(b"key", end), None);
    assert!(!cache.contains_key_at(b"key", end));
}

#[test]
fn a_get_begins_the_time_to_idle_anew_and_a_peek_does_not() {
    let mut cache = ByteCache::builder()
        .time_to_idle(10 * SECOND)
        .build()
        .unwrap();
    cache.insert_at(b"key", b"value", START).unwrap();
    assert!(cache.get_at(b"key", 9 * SECOND).is_some());
    assert!(cache.peek_at(b"key", 18 * SECOND).is_some());
    assert!(cache.contains_key_at(b"key", 19 * SECOND - NANOSECOND));
    assert!(!cache.contains_key_at(b"key", 19 * SECOND));
}

#[test]
fn a_moment_after_the_last_one_is_the_last_one() {
    let mut cache = ByteCache::builder().time_to_live(SECOND).build().unwrap();
    cache.insert_at(b"key", b"value", Duration::MAX).unwrap();
    let last = Duration::from_nanos(u64::MAX);
    assert!(cache.contains_key_at(b"key", last));
    assert!(cache.contains_key_at(b"key", Duration::MAX));
    assert!(cache.contains_key_at(b"key", last - 2 * SECOND));
}

#[test]
fn there_are_never_more_entries_than_the_capacity() {
    let mut cache = ByteCache::builder().max_capacity(150).build().unwrap();
    for key in 0..1000u32 {
        cache.insert(key.to_le_bytes(), b"value").unwrap();
        assert!(cache.len() <= 150);
        assert_eq!(cache.weighted_size(), cache.len() as u64);
    }
    assert_eq!(cache.len(), 150);
}

#[test]
fn weighed_entries_stay_within_the_capacity() {
    let mut cache = ByteCache::builder()
        .max_capacity(10_000)
        .weigh_bytes()
        .build()
        .unwrap();
    for key in 0..1000u32 {
        cache.insert(key.to_le_bytes(), bytes(96)).unwrap();
        assert!(cache.weighted_size() <= 10_000);
        assert_eq!(cache.weighted_size(), 100 * cache.len() as u64);
    }
    assert_eq!(cache.len(), 100);
}

#[test]
fn an_entry_above_the_capacity_is_rejected() {
    let mut cache = ByteCache::builder()
        .max_capacity(9)
        .weigh_bytes()
        .build()
        .unwrap();
    assert_eq!(cache.insert(b"small", b"1234"), Ok(Inserted::Stored));
    assert_eq!(cache.insert(b"large", b"12345"), Ok(Inserted::Rejected));
    // An update is stored, even above the capacity.
    assert_eq!(cache.insert(b"small", b"12345"), Ok(Inserted::Stored));
    cache.insert(b"small", b"1234").unwrap();
    assert!(cache.contains_key(b"small"));
    assert!(!cache.contains_key(b"large"));
}

#[test]
fn a_removed_value_is_returned_once() {
    let mut cache = unlimited();
    cache.insert(b"key", b"value").unwrap();
    assert_eq!(cache.remove(b"key").unwrap(), Some(b"value".to_vec()));
    assert_eq!(cache.remove(b"key").unwrap(), None);
    assert_eq!(cache.len(), 0);
}

#[test]
fn invalidated_entries_are_gone() {
    let mut cache = unlimited();
    for key in 0..10u8 {
        cache.insert([key], b"value").unwrap();
    }
    cache.invalidate([3]);
    cache.invalidate([3]);
    assert!(!cache.contains_key([3]));
    assert_eq!(cache.len(), 9);
    cache.clear();
    assert_eq!(cache.len(), 0);
    assert_eq!(cache.weighted_size(), 0);
}

#[test]
fn a_value_is_made_only_for_a_key_that_has_none() {
    let mut cache = unlimited();
    let mut made = 0;
    for _ in 0..3 {
        let value = cache.get_or_insert_with(b"key", || {
            made += 1;
            b"value".to_vec()
        });
        assert_eq!(value.unwrap(), b"value");
    }
    assert_eq!(made, 1);
    assert_eq!(cache.statistics().hits, 2);
    assert_eq!(cache.statistics().misses, 1);
    assert_eq!(cache.statistics().inserts, 1);
}

#[test]
fn a_made_value_is_returned_also_where_it_is_rejected() {
    let mut cache = ByteCache::builder().max_capacity(0).build().unwrap();
    let value = cache.get_or_insert_with_at(b"key", || b"value".to_vec(), START);
    assert_eq!(value.unwrap(), b"value");
    assert_eq!(cache.len(), 0);
}

#[test]
fn a_cache_goes_on_after_a_panic_of_make() {
    let mut cache = unlimited();
    cache.insert(b"other", b"value").unwrap();
    let panicked = std::panic::catch_unwind(std::panic::AssertUnwindSafe(|| {
        cache.get_or_insert_with(b"key", || panic!("a test panic"))
    }));
    assert!(panicked.is_err());
    assert_eq!(cache.get(b"other"), Some(b"value".to_vec()));
    assert!(!cache.contains_key(b"key"));
}

#[test]
fn a_cache_shows_its_counts() {
    let mut cache = unlimited();
    cache.insert(b"key", b"value").unwrap();
    let shown = format!("{cache:?}");
    assert_eq!(shown, "ByteCache { len: 1, weighted_size: 1, .. }");
}

/// Returns the pairs of an iterator at a moment, as texts.
fn pairs(cache: &mut ByteCache, now: Duration) -> Vec<String> {
    cache
        .iter_at(now)
        .map(|pair| {
            let (key, value) = pair.unwrap();
            format!(
                "{}={}",
                String::from_utf8_lossy(&key),
                String::from_utf8_lossy(&value)
            )
        })
        .collect()
}

#[test]
fn an_iterator_gives_unexpired_pairs_in_order_of_use() {
    let mut cache = ByteCache::builder()
        .time_to_live(10 * SECOND)
        .build()
        .unwrap();
    assert_eq!(pairs(&mut cache, START), Vec::<String>::new());
    cache.insert_at(b"a", b"apple", SECOND).unwrap();
    cache.insert_at(b"b", b"", START).unwrap();
    cache.insert_at(b"", b"nothing", SECOND).unwrap();
    let _ = cache.get_at(b"a", SECOND);
    assert_eq!(pairs(&mut cache, SECOND), ["b=", "=nothing", "a=apple"]);
    assert_eq!(pairs(&mut cache, 10 * SECOND), ["=nothing", "a=apple"]);
    assert_eq!(cache.len(), 3);
}

#[test]
fn an_iterator_can_be_left_and_begun_again() {
    let mut cache = unlimited();
    for length in [0, 10, 1000, 1 << 20] {
        cache.insert(bytes(length), bytes(length / 2)).unwrap();
    }
    let second = cache.iter().nth(1).unwrap().unwrap();
    assert_eq!(second, (bytes(10), bytes(5)));
    let _ = cache.remove(bytes(10)).unwrap();
    let left: Vec<usize> = cache.iter().map(|pair| pair.unwrap().0.len()).collect();
    assert_eq!(left, [0, 1000, 1 << 20]);
    assert!(cache.iter().all(|pair| {
        let (key, value) = pair.unwrap();
        value == bytes(key.len() / 2)
    }));
}

#[test]
fn texts_vectors_and_arrays_are_bytes() {
    let mut cache = ByteCache::new(100).unwrap();
    cache.insert("key", String::from("value")).unwrap();
    cache.insert([7u8], vec![49u8]).unwrap();
    assert_eq!(cache.get(b"key"), Some(b"value".to_vec()));
    assert_eq!(cache.get(String::from("key")), cache.peek("key"));
    assert_eq!(cache.get(vec![7u8]), Some(vec![49]));
    assert_eq!(cache.len(), 2);
    assert!(!cache.is_empty());
    cache.clear();
    assert!(cache.is_empty());
}

#[test]
fn a_get_tells_absent_from_found() {
    let mut cache = ByteCache::builder()
        .time_to_live(10 * SECOND)
        .build()
        .unwrap();
    assert_eq!(cache.try_get("key"), Ok(None));
    cache.insert_at("key", "value", START).unwrap();
    let last = 10 * SECOND - NANOSECOND;
    assert_eq!(cache.try_get_at("key", last), Ok(Some(b"value".to_vec())));
    assert_eq!(cache.try_get_at("key", 10 * SECOND), Ok(None));
}

#[test]
fn an_iterator_stays_at_its_end_and_a_loop_takes_the_cache() {
    let mut cache = unlimited();
    cache.insert("a", "apple").unwrap();
    let mut pairs = cache.iter();
    assert!(pairs.next().is_some());
    for _ in 0..3 {
        assert!(pairs.next().is_none());
    }
    let mut met = 0;
    for pair in &mut cache {
        assert_eq!(pair.unwrap(), (b"a".to_vec(), b"apple".to_vec()));
        met += 1;
    }
    assert_eq!(met, 1);
}
