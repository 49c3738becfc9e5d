//! Tests that each setting of a builder reaches the cache, and which settings are refused.

mod common;

use common::{Random, NANOSECOND, SECOND, START};
use mini_moka_proved::{sync, BuildError, ByteCache, ManualClock, NumberCache};
use std::time::Duration;

#[test]
fn a_duration_of_all_64_bits_is_too_long() {
    let longest = Duration::from_nanos(u64::MAX - 1);
    let too_long = Duration::from_nanos(u64::MAX);
    let live = |duration| ByteCache::builder().time_to_live(duration).build();
    let idle = |duration| ByteCache::builder().time_to_idle(duration).build();
    assert!(live(longest).is_ok());
    assert!(idle(longest).is_ok());
    for duration in [too_long, too_long + NANOSECOND, Duration::MAX] {
        assert_eq!(live(duration).unwrap_err(), BuildError::DurationTooLong);
        assert_eq!(idle(duration).unwrap_err(), BuildError::DurationTooLong);
        let numbers = NumberCache::builder().time_to_live(duration).build();
        assert_eq!(numbers.unwrap_err(), BuildError::DurationTooLong);
        let shared = sync::ByteCache::builder().time_to_idle(duration).build();
        assert_eq!(shared.unwrap_err(), BuildError::DurationTooLong);
    }
}

#[test]
fn a_duration_of_zero_is_refused() {
    let zero = Err(BuildError::ZeroDuration);
    let live = [
        ByteCache::builder().time_to_live(START).build().map(drop),
        NumberCache::builder().time_to_live(START).build().map(drop),
        sync::ByteCache::builder()
            .time_to_live(START)
            .build()
            .map(drop),
    ];
    let idle = [
        ByteCache::builder().time_to_idle(START).build().map(drop),
        NumberCache::builder().time_to_idle(START).build().map(drop),
        sync::ByteCache::builder()
            .time_to_idle(START)
            .build()
            .map(drop),
    ];
    assert_eq!((live, idle), ([zero; 3], [zero; 3]));
    assert!(ByteCache::builder()
        .time_to_live(NANOSECOND)
        .build()
        .is_ok());
}

#[test]
fn an_impossible_initial_capacity_is_refused() {
    let refused = Err(BuildError::OutOfMemory);
    let most = usize::MAX;
    let built = [
        ByteCache::builder()
            .initial_capacity(most)
            .build()
            .map(drop),
        NumberCache::builder()
            .initial_capacity(most)
            .build()
            .map(drop),
        sync::ByteCache::builder()
            .initial_capacity(most)
            .build()
            .map(drop),
    ];
    assert_eq!(built, [refused; 3]);
    assert!(ByteCache::builder().initial_capacity(1000).build().is_ok());
}

#[test]
fn an_impossible_queue_is_refused() {
    let refused = Err(BuildError::OutOfMemory);
    let most = usize::MAX;
    let built = [
        ByteCache::builder().removed_room(most).build().map(drop),
        NumberCache::builder().removed_room(most).build().map(drop),
        sync::ByteCache::builder()
            .removed_room(most)
            .build()
            .map(drop),
    ];
    assert_eq!(built, [refused; 3]);
}

#[test]
fn a_new_cache_has_its_capacity_and_no_duration() {
    let mut cache = ByteCache::new(150).unwrap();
    for key in 0..1000u32 {
        cache.insert(key.to_le_bytes(), b"value").unwrap();
        assert!(cache.len() <= 150);
    }
    assert_eq!(cache.len(), 150);
    assert_eq!(cache.now(), START);
}

#[test]
fn a_builder_shows_its_limits_and_no_seed() {
    let builder = ByteCache::builder()
        .max_capacity(10)
        .time_to_live(SECOND)
        .seed(*b"0123456789abcdef");
    assert_eq!(
        format!("{builder:?}"),
        "ByteBuilder { max_capacity: Some(10), time_to_live: Some(1s), time_to_idle: None, \
         initial_capacity: 0, removed_room: 0, window_share: 1, protected_share: 0, \
         adaptive: false, clock: Precise, weigh_bytes: false, .. }"
    );
    let builder = NumberCache::builder()
        .max_capacity(10)
        .adaptive()
        .window_share(5)
        .coarse_clock();
    assert_eq!(
        format!("{builder:?}"),
        "NumberBuilder { max_capacity: Some(10), time_to_live: None, time_to_idle: None, \
         initial_capacity: 0, removed_room: 0, window_share: 5, protected_share: 80, \
         adaptive: true, clock: Coarse, weigh_values: false }"
    );
    let clock = ManualClock::new();
    clock.set(2 * SECOND);
    let builder = sync::ByteCache::builder()
        .time_to_idle(SECOND)
        .initial_capacity(7)
        .removed_room(8)
        .weigh_bytes()
        .protected_share(30)
        .manual_clock(&clock)
        .segments(4);
    assert_eq!(
        format!("{builder:?}"),
        "ByteBuilder { whole: ByteBuilder { max_capacity: None, time_to_live: None, \
         time_to_idle: Some(1s), initial_capacity: 7, removed_room: 8, window_share: 1, \
         protected_share: 30, adaptive: false, clock: Manual(ManualClock(2s)), \
         weigh_bytes: true, .. }, segments: Some(4) }"
    );
}

#[test]
fn each_duration_and_the_weigher_reach_the_segments() {
    let last = 10 * SECOND - NANOSECOND;
    for is_live in [false, true] {
        let builder = sync::ByteCache::builder().segments(2);
        let cache = if is_live {
            builder.time_to_live(10 * SECOND)
        } else {
            builder.time_to_idle(10 * SECOND)
        };
        let cache = cache.build().unwrap();
        cache.insert_at([1], [1], START).unwrap();
        assert!(cache.peek_at([1], last).is_some() && cache.peek_at([1], 10 * SECOND).is_none());
        assert!(cache.get_at([1], SECOND).is_some());
        assert_eq!(cache.peek_at([1], 10 * SECOND).is_some(), !is_live);
    }
    let weighed = sync::ByteCache::builder().weigh_bytes().segments(4);
    let weighed = weighed.build().unwrap();
    assert!(weighed.is_empty());
    weighed.insert("key", "value").unwrap();
    let counts = (weighed.weighted_size(), weighed.len(), weighed.is_empty());
    assert_eq!(counts, (8, 1, false));
}

#[test]
fn caches_of_any_seed_find_what_was_inserted() {
    for seed in [[0; 16], [255; 16], *b"16 bytes of seed"] {
        let mut cache = ByteCache::builder().seed(seed).build().unwrap();
        cache.insert(b"key", b"value").unwrap();
        assert_eq!(cache.get(b"key"), Some(b"value".to_vec()));
    }
}

/// Returns the keys that stay in a full cache after many calls. They depend on its seed.
fn kept(seed: Option<[u8; 16]>) -> Vec<u8> {
    let mut random = Random(1);
    let builder = ByteCache::builder().max_capacity(60);
    let builder = match seed {
        Some(seed) => builder.seed(seed),
        None => builder,
    };
    let mut cache = builder.build().unwrap();
    for _ in 0..20_000 {
        let key = [random.below(250) as u8];
        if cache.get(key).is_none() {
            cache.insert(key, key).unwrap();
        }
    }
    cache.iter().map(|pair| pair.unwrap().0[0]).collect()
}

#[test]
fn a_fixed_seed_is_used_and_the_default_one_is_random() {
    assert_eq!(kept(Some([7; 16])), kept(Some([7; 16])));
    assert_ne!(kept(Some([7; 16])), kept(Some([8; 16])));
    assert_ne!(kept(None), kept(None));
}

/// Returns the keys of a cache of eight segments, one segment after another.
fn spread(builder: sync::ByteBuilder) -> Vec<Vec<u8>> {
    let cache = builder.segments(8).build().unwrap();
    for key in 0..100u8 {
        cache.insert([key], [key]).unwrap();
    }
    cache.iter().map(|pair| pair.unwrap().0).collect()
}

#[test]
fn the_seed_picks_the_segments() {
    let of = |byte| spread(sync::ByteCache::builder().seed([byte; 16]));
    assert_eq!(of(7), of(7));
    assert_ne!(of(7), of(8));
    assert_ne!(
        spread(sync::ByteCache::builder()),
        spread(sync::ByteCache::builder())
    );
}

#[test]
fn each_bit_of_the_seed_counts() {
    let of = |seed: u128| spread(sync::ByteCache::builder().seed(seed.to_le_bytes()));
    let zero = of(0);
    assert!((0..128).all(|bit| of(1 << bit) != zero));
}

#[test]
fn errors_and_weights_are_shown() {
    let texts = [
        BuildError::ZeroDuration.to_string(),
        BuildError::DurationTooLong.to_string(),
        BuildError::ShareTooLarge.to_string(),
        BuildError::OutOfMemory.to_string(),
    ];
    assert_eq!(
        texts,
        [
            "a duration is 0",
            "a duration is 2^64 - 1 nanoseconds or more",
            "a share is above 100 percent",
            "memory was refused"
        ]
    );
    let mut cache = ByteCache::builder().weigh_bytes().build().unwrap();
    cache.insert("key", "value").unwrap();
    assert_eq!(
        format!("{cache:?}"),
        "ByteCache { len: 1, weighted_size: 8, .. }"
    );
    assert_eq!(cache.iter().size_hint(), (0, None));
}
