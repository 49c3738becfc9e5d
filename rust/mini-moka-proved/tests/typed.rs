//! Tests typed caches for one thread: beside a cache of numbers, and beside a plain model with hashes
//! that collide.

mod common;

use common::{Random, Remainder, Told, SECOND};
use mini_moka_proved::{
    BuildError, Cache, CacheBuilder, Cause, Insertion, ManualClock, NumberBuilder, NumberCache,
    Statistics, ValueRef,
};
use std::collections::HashMap;
use std::rc::Rc;
use std::time::Duration;

fn ns(number: u64) -> Duration {
    Duration::from_nanos(number)
}

/// Builders of a typed cache and of a cache of numbers, with the same random settings.
fn builders(random: &mut Random) -> (CacheBuilder<u64, u64>, NumberBuilder) {
    let (mut typed, mut numbers) = (Cache::builder(), NumberCache::builder());
    if let Some(capacity) = [
        None,
        Some(0),
        Some(1),
        Some(2),
        Some(50),
        Some(99),
        Some(100),
        Some(150),
    ][random.below(8) as usize]
    {
        (typed, numbers) = (typed.max_capacity(capacity), numbers.max_capacity(capacity));
    }
    if random.below(3) == 0 {
        let weigher = |_: &u64, value: &u64| (*value >> 32) as u32;
        (typed, numbers) = (typed.weigher(weigher), numbers.weigh_values());
    }
    if random.below(2) == 0 {
        (typed, numbers) = (typed.time_to_idle(ns(300)), numbers.time_to_idle(ns(300)));
    }
    if random.below(3) == 0 {
        (typed, numbers) = (typed.time_to_live(ns(500)), numbers.time_to_live(ns(500)));
    }
    match random.below(4) {
        0 => (typed.adaptive(), numbers.adaptive()),
        1 => (typed.window_share(20), numbers.window_share(20)),
        2 => (typed.protected_share(80), numbers.protected_share(80)),
        _ => (typed, numbers),
    }
}

/// A typed cache of numbers that hash to themselves, and a cache of numbers.
struct Pair {
    typed: Cache<u64, u64, Remainder>,
    told: Told<u64, u64>,
    numbers: NumberCache,
    clock: ManualClock,
}

impl Pair {
    fn new(random: &mut Random) -> Pair {
        let (typed, numbers) = builders(random);
        let (told, clock) = (Told::new(), ManualClock::new());
        Pair {
            typed: typed
                .manual_clock(&clock)
                .eviction_listener(told.listener())
                .build_with_hasher(Remainder(0)),
            told,
            numbers: numbers
                .manual_clock(&clock)
                .removed_room(10_000)
                .build()
                .unwrap(),
            clock,
        }
    }

    /// Makes a call on both, and compares the answers. Returns the entry that the call returned, which
    /// the listener doesn't get.
    fn call(&mut self, call: u64, key: u64, value: u64) -> Option<(u64, u64, Cause)> {
        let (typed, numbers) = (&mut self.typed, &mut self.numbers);
        let capacity = typed.policy().max_capacity().unwrap_or(u64::MAX);
        match call {
            0..=5 => {
                let (before, updates) = (numbers.peek(key), numbers.statistics().updates);
                let stored = numbers.insert(key, value).unwrap();
                // A heavy cache may have evicted the entry first.
                let replaced = before.filter(|_| numbers.statistics().updates > updates);
                let insertion = typed.insert(key, value);
                let wanted = match (stored, replaced) {
                    (mini_moka_proved::Inserted::Rejected, _) => Insertion::Rejected,
                    (_, Some(old)) => Insertion::Replaced(old),
                    (_, None) => Insertion::New,
                };
                assert_eq!(insertion, wanted);
                return replaced.map(|old| (key, old, Cause::Replaced));
            }
            6..=8 => assert_eq!(typed.get(&key).copied(), numbers.get(key)),
            9 => assert_eq!(typed.remove(&key), numbers.remove(key).unwrap()),
            10 => assert_eq!(typed.peek(&key).copied(), numbers.peek(key)),
            11 => assert_eq!(typed.contains_key(&key), numbers.contains_key(key)),
            13 => {
                // What is above the capacity is evicted first.
                while numbers.peek(key).is_some() && numbers.weighted_size() > capacity {
                    numbers.contains_key(key);
                }
                let before = numbers.peek(key);
                if before.is_some() {
                    numbers.insert(key, value).unwrap();
                }
                let modified = typed.modify(&key, |old| {
                    assert_eq!(Some(*old), before);
                    *old = value;
                });
                assert_eq!(modified, before.is_some());
                return before.map(|old| (key, old, Cause::Replaced));
            }
            14 => {
                // A typed cache may also evict in this call what is above the capacity.
                while numbers.weighted_size() > capacity {
                    assert_eq!(typed.contains_key(&key), numbers.contains_key(key));
                }
                numbers.remove_expired();
                typed.remove_expired();
            }
            12 => {
                numbers.invalidate(key);
                typed.invalidate(&key);
            }
            _ => {
                let wanted = numbers.get_or_insert_with(key, || value).unwrap();
                let found = typed.get_or_insert_with(key, || value);
                assert_eq!(*found, wanted);
                let is_rejected = matches!(found, ValueRef::Rejected(_));
                return is_rejected.then_some((key, value, Cause::Rejected));
            }
        }
        None
    }

    /// Compares what left in a call, in any order if a call removed all expired entries.
    fn compare_left(&mut self, call: u64, returned: Option<(u64, u64, Cause)>) {
        let mut told = self.told.take();
        told.extend(returned);
        let removed = self.numbers.removed();
        let mut left: Vec<_> = removed.map(|it| (it.key, it.value, it.cause)).collect();
        if call == 14 {
            told.sort_by_key(|entry| entry.0);
            left.sort_by_key(|entry| entry.0);
        }
        // A call returns its own entry after those that left.
        assert_eq!(told, left);
    }
}

#[test]
fn without_collisions_it_is_the_cache_of_numbers() {
    let mut total = Statistics::default();
    for seed in 0..60 {
        let mut random = Random(seed);
        let mut pair = Pair::new(&mut random);
        let mut now = 0;
        for value in 0..2500 {
            now += random.below(3);
            // Now and then the clock is set back.
            let moment = match random.below(20) {
                0 => random.below(now + 1),
                _ => now,
            };
            pair.clock.set(ns(moment));
            let key = match random.below(2) {
                0 => random.below(60),
                _ => random.below(300),
            };
            let call = random.below(17);
            // A weighed cache weighs the upper half.
            let weight = random.below(8);
            let returned = pair.call(call, key, value | weight << 32);
            pair.compare_left(call, returned);
            assert_eq!(pair.typed.len(), pair.numbers.len());
            assert_eq!(pair.typed.weighted_size(), pair.numbers.weighted_size());
            assert_eq!(pair.typed.window_capacity(), pair.numbers.window_capacity());
            if value % 100 == 0 {
                let typed = pair.typed.iter().map(|(key, value)| (*key, *value));
                let typed: Vec<_> = typed.collect();
                assert_eq!(typed, pair.numbers.iter().collect::<Vec<_>>());
            }
        }
        let counts = pair.typed.statistics();
        assert_eq!(counts, pair.numbers.statistics());
        total = Statistics {
            hits: total.hits + counts.hits,
            updates: total.updates + counts.updates,
            evictions: total.evictions + counts.evictions,
            expirations: total.expirations + counts.expirations,
            rejections: total.rejections + counts.rejections,
            ..total
        };
    }
    let often = [
        total.hits,
        total.updates,
        total.evictions,
        total.expirations,
        total.rejections,
    ];
    assert!(often.iter().all(|count| *count > 1000), "{total:?}");
}

/// The entry of a key in the model.
#[derive(Clone, Copy)]
struct Entry {
    value: u64,
    written: u64,
    used: u64,
}

/// A cache whose hashes collide, and a model that knows what left.
struct Colliding {
    cache: Cache<u64, u64, Remainder>,
    told: Told<u64, u64>,
    clock: ManualClock,
    entries: HashMap<u64, Entry>,
    expires: bool,
}

const LIVE: u64 = 300;
const IDLE: u64 = 200;

impl Colliding {
    fn new(random: &mut Random, divisor: u64) -> Colliding {
        let (told, clock) = (Told::new(), ManualClock::new());
        let capacities = [0, 1, 2, 5, 50, 99, 100, 150, 10_000];
        let mut builder = Cache::builder()
            .max_capacity(capacities[random.below(9) as usize])
            .eviction_listener(told.listener())
            .manual_clock(&clock);
        let expires = random.below(3) == 0;
        if expires {
            builder = builder.time_to_live(ns(LIVE)).time_to_idle(ns(IDLE));
        }
        Colliding {
            cache: builder.build_with_hasher(Remainder(divisor)),
            told,
            clock,
            entries: HashMap::new(),
            expires,
        }
    }

    fn is_live(&self, entry: &Entry, now: u64) -> bool {
        !self.expires || (now < entry.written + LIVE && now < entry.used + IDLE)
    }

    fn live(&self, key: u64, now: u64) -> Option<u64> {
        let entry = self.entries.get(&key);
        entry
            .filter(|entry| self.is_live(entry, now))
            .map(|entry| entry.value)
    }

    /// Makes a call at a moment, and compares its answer.
    fn call(&mut self, call: u64, key: u64, value: u64, now: u64) {
        self.clock.set(ns(now));
        let live = self.live(key, now);
        match call {
            0..=7 => match self.cache.insert(key, value) {
                Insertion::Replaced(old) => {
                    assert_eq!(Some(old), live);
                    self.left(None, now);
                    self.write(key, value, now);
                }
                Insertion::New => {
                    assert_eq!(live, None);
                    self.left(None, now);
                    self.write(key, value, now);
                }
                Insertion::Rejected => {
                    assert_eq!(live, None);
                    self.left(Some((key, value)), now);
                }
            },
            8..=11 => {
                assert_eq!(self.cache.get(&key).copied(), live);
                if let Some(entry) = self.entries.get_mut(&key).filter(|_| live.is_some()) {
                    entry.used = now;
                }
            }
            12 | 13 => {
                assert_eq!(self.cache.remove(&key), live);
                if live.is_some() {
                    self.entries.remove(&key);
                }
            }
            14 => assert_eq!(self.cache.peek(&key).copied(), live),
            15 => {
                let modified = self.cache.modify(&key, |old| {
                    assert_eq!(Some(*old), live);
                    *old = value;
                });
                assert_eq!(modified, live.is_some());
                self.left(None, now);
                if modified {
                    self.write(key, value, now);
                }
            }
            16 if value % 20 == 0 => {
                self.cache.remove_expired();
                self.left(None, now);
                assert!(self.entries.values().all(|entry| self.is_live(entry, now)));
            }
            _ if value % 200 == 0 => {
                self.cache.invalidate_entries_if(|key, _| key % 3 == 0);
                assert!(self.cache.iter().all(|(key, _)| key % 3 > 0));
            }
            _ => assert_eq!(self.cache.contains_key(&key), live.is_some()),
        }
        self.left(None, now);
        assert_eq!(self.cache.len(), self.entries.len());
    }

    fn write(&mut self, key: u64, value: u64, now: u64) {
        let entry = Entry {
            value,
            written: now,
            used: now,
        };
        self.entries.insert(key, entry);
    }

    /// Removes what left from the model. Each departure must have its reason.
    fn left(&mut self, rejected: Option<(u64, u64)>, now: u64) {
        let mut is_told = rejected.is_none();
        for (key, value, cause) in self.told.take() {
            if cause == Cause::Rejected {
                assert_eq!(rejected, Some((key, value)));
                is_told = true;
                continue;
            }
            let entry = self.entries.remove(&key).unwrap();
            assert_eq!(entry.value, value);
            match cause {
                Cause::Expired => assert!(!self.is_live(&entry, now)),
                Cause::Explicit => assert_eq!(key % 3, 0),
                Cause::Size => assert!(self.cache.policy().max_capacity().is_some()),
                other => panic!("{other:?}"),
            }
        }
        assert!(is_told);
    }

    fn compare_all(&self, now: u64) {
        let mut found: Vec<_> = self
            .cache
            .iter()
            .map(|(key, value)| (*key, *value))
            .collect();
        let live = self
            .entries
            .iter()
            .filter(|(_, entry)| self.is_live(entry, now));
        let mut wanted: Vec<_> = live.map(|(key, entry)| (*key, entry.value)).collect();
        found.sort_unstable();
        wanted.sort_unstable();
        assert_eq!(found, wanted);
    }
}

#[test]
fn all_expired_entries_leave_at_once() {
    let (told, clock) = (Told::new(), ManualClock::new());
    let mut cache = Cache::builder()
        .time_to_live(ns(100))
        .eviction_listener(told.listener())
        .manual_clock(&clock)
        .build();
    cache.insert(0, 0);
    for key in 1..=3000u64 {
        let stored = cache.insert_with_time_to_live(key, key, ns(5));
        assert_eq!(stored, Ok(Insertion::New));
    }
    clock.set(ns(4));
    cache.remove_expired();
    assert_eq!((cache.len(), told.take()), (3001, Vec::new()));
    clock.set(ns(5));
    cache.remove_expired();
    assert_eq!((cache.len(), cache.statistics().expirations), (1, 3000));
    let mut told = told.take();
    told.sort_by_key(|entry| entry.0);
    let wanted = (1..=3000).map(|key| (key, key, Cause::Expired));
    assert!(told.into_iter().eq(wanted));
    assert_eq!(cache.get(&0), Some(&0));
}

#[test]
fn a_modified_entry_lives_as_long_as_a_new_one() {
    let (told, clock) = (Told::new(), ManualClock::new());
    let mut cache = Cache::builder()
        .max_capacity(10)
        .time_to_live(ns(10))
        .eviction_listener(told.listener())
        .manual_clock(&clock)
        .build();
    cache.insert("text", "a".to_string());
    cache.insert("other", "b".to_string());
    clock.set(ns(6));
    assert!(cache.modify("text", |text| text.push('c')));
    assert!(!cache.modify("none", |_| unreachable!()));
    let keys: Vec<_> = cache.iter().map(|(key, _)| *key).collect();
    assert_eq!(keys, ["other", "text"]);
    clock.set(ns(15));
    assert_eq!(cache.get("text").map(String::as_str), Some("ac"));
    assert_eq!(told.take(), [("other", "b".to_string(), Cause::Expired)]);
    clock.set(ns(16));
    assert!(!cache.modify("text", |_| unreachable!()));
    assert_eq!(cache.get("text"), None);
}

#[test]
fn keys_whose_hashes_collide_are_distinct() {
    let mut hits = 0;
    for seed in 0..60 {
        let mut random = Random(seed);
        let divisor = [1, 2, 3, 7, 40][random.below(5) as usize];
        let mut pair = Colliding::new(&mut random, divisor);
        let mut now = 0;
        for value in 0..2000 {
            now += random.below(3);
            let moment = match random.below(20) {
                0 => random.below(now + 1),
                _ => now,
            };
            let key = match random.below(2) {
                0 => random.below(20),
                _ => random.below(200),
            };
            pair.call(random.below(18), key, value, moment);
            if value % 100 == 0 {
                pair.compare_all(moment);
            }
        }
        hits += pair.cache.statistics().hits;
        pair.cache.clear();
        let mut told = pair.told.take();
        assert!(pair.cache.is_empty());
        assert_eq!(told.len(), pair.entries.len());
        for (key, value, cause) in told.drain(..) {
            assert_eq!(cause, Cause::Explicit);
            assert_eq!(pair.entries[&key].value, value);
        }
    }
    assert!(hits > 2000, "{hits}");
}

#[test]
fn a_value_is_dropped_once_in_the_call_in_which_it_leaves() {
    let token = Rc::new(());
    let clock = ManualClock::new();
    let mut cache = Cache::builder()
        .max_capacity(50)
        .time_to_live(100 * SECOND)
        .manual_clock(&clock)
        .build();
    for number in 0..1000u64 {
        clock.advance(SECOND);
        cache.insert(format!("key {}", number % 130), Rc::clone(&token));
        assert_eq!(Rc::strong_count(&token), 1 + cache.len());
        let _ = cache.get("key 7");
        assert_eq!(Rc::strong_count(&token), 1 + cache.len());
    }
    assert!(cache.statistics().expirations > 0 && cache.statistics().evictions > 0);
    let _ = cache.get_or_insert_with("new".to_string(), || Rc::clone(&token));
    assert_eq!(Rc::strong_count(&token), 1 + cache.len());
    cache.insert("new".to_string(), Rc::clone(&token));
    assert_eq!(Rc::strong_count(&token), 1 + cache.len());
    let _ = cache.remove("new");
    cache.invalidate("key 7");
    assert_eq!(Rc::strong_count(&token), 1 + cache.len());
    cache.invalidate_entries_if(|key, _| key.ends_with('1'));
    assert_eq!(Rc::strong_count(&token), 1 + cache.len());
    assert!(!cache.is_empty());
    cache.invalidate_all();
    assert_eq!(Rc::strong_count(&token), 1);
    cache.insert("last".to_string(), Rc::clone(&token));
    drop(cache);
    assert_eq!(Rc::strong_count(&token), 1);
}

#[test]
fn keys_are_looked_up_by_what_they_borrow() {
    let mut cache: Cache<String, Vec<u8>> = Cache::new(100);
    cache.insert("alice".to_string(), vec![1]);
    let name: &str = "alice";
    assert_eq!(cache.get(name), Some(&vec![1]));
    assert_eq!(cache.peek(&name.to_string()), Some(&vec![1]));
    assert!(cache.contains_key(name) && !cache.contains_key("bob"));
    cache.invalidate(name);
    assert_eq!(cache.remove(name), None);
    cache.insert("bob".to_string(), vec![2]);
    assert_eq!(cache.remove("bob"), Some(vec![2]));
}

#[test]
fn an_update_keeps_the_key_of_the_entry() {
    /// A key of which only the number is compared and hashed.
    #[derive(Debug, Clone)]
    struct Key(u64, &'static str);
    impl PartialEq for Key {
        fn eq(&self, other: &Key) -> bool {
            self.0 == other.0
        }
    }
    impl Eq for Key {}
    impl std::hash::Hash for Key {
        fn hash<H: std::hash::Hasher>(&self, state: &mut H) {
            state.write_u64(self.0);
        }
    }
    let mut cache = Cache::new(100);
    assert_eq!(cache.insert(Key(1, "first"), 1), Insertion::New);
    assert_eq!(cache.insert(Key(1, "second"), 2), Insertion::Replaced(1));
    let names: Vec<_> = cache.iter().map(|(key, value)| (key.1, *value)).collect();
    assert_eq!(names, [("first", 2)]);
}

#[test]
fn a_made_value_is_returned_even_if_it_is_rejected() {
    let told = Told::new();
    let mut cache = Cache::builder()
        .max_capacity(0)
        .eviction_listener(told.listener())
        .build();
    let found = cache.get_or_insert_with(1, || "one".to_string());
    assert_eq!(found, ValueRef::Rejected("one".to_string()));
    assert_eq!((found.len(), found.into_owned()), (3, "one".to_string()));
    assert_eq!(told.take(), []);
    assert_eq!(cache.insert(1, "one".to_string()), Insertion::Rejected);
    assert_eq!(told.take(), [(1, "one".to_string(), Cause::Rejected)]);

    let mut cache = Cache::new(100);
    let found = cache.get_or_insert_with(1, || "one".to_string());
    assert_eq!(found, ValueRef::Cached(&"one".to_string()));
    assert_eq!((found.len(), found.into_owned()), (3, "one".to_string()));
}

#[test]
fn a_make_that_fails_inserts_nothing() {
    let mut cache: Cache<&str, u32> = Cache::new(100);
    let failed = cache.try_get_or_insert_with("seven", || "x".parse::<u32>());
    assert!(failed.is_err());
    assert!(cache.is_empty());
    let made = cache.try_get_or_insert_with("seven", || "7".parse::<u32>());
    assert_eq!(made, Ok(ValueRef::Cached(&7)));
    let found = cache.try_get_or_insert_with("seven", || "x".parse::<u32>());
    assert_eq!(found, Ok(ValueRef::Cached(&7)));
}

#[test]
fn an_entry_that_is_live_again_is_replaced_by_what_was_made() {
    let (told, clock) = (Told::new(), ManualClock::new());
    let mut cache = Cache::builder()
        .time_to_live(10 * SECOND)
        .manual_clock(&clock)
        .eviction_listener(told.listener())
        .build();
    // The later entry's look-up doesn't remove the first, which hides behind a live one.
    clock.set(50 * SECOND);
    cache.insert(0, "live");
    clock.set(SECOND);
    cache.insert(1, "old");
    clock.set(55 * SECOND);
    let found = cache.get_or_insert_with(1, || {
        clock.set(2 * SECOND);
        "new"
    });
    assert_eq!(found, ValueRef::Cached(&"new"));
    assert_eq!(told.take(), [(1, "old", Cause::Replaced)]);
    assert_eq!(cache.len(), 2);
}

#[test]
fn a_walk_and_debug_output_show_the_live_entries() {
    let clock = ManualClock::new();
    let mut cache = Cache::builder()
        .time_to_live(10 * SECOND)
        .manual_clock(&clock)
        .build();
    cache.insert("old", 1);
    clock.advance(5 * SECOND);
    cache.insert("new", 2);
    assert_eq!(format!("{cache:?}"), r#"{"old": 1, "new": 2}"#);
    let _ = cache.get("old");
    let mut walk = cache.iter();
    assert_eq!((walk.len(), walk.next()), (2, Some((&"new", &2))));
    assert_eq!(format!("{walk:?}"), "Iter { left: 1, .. }");
    assert_eq!((walk.next(), walk.next()), (Some((&"old", &1)), None));
    clock.advance(5 * SECOND);
    let mut live = Vec::new();
    for (key, value) in &cache {
        live.push((*key, *value));
    }
    assert_eq!(live, [("new", 2)]);
    assert_eq!((cache.entry_count(), cache.weighted_size()), (2, 2));
    assert_eq!(cache.now(), 10 * SECOND);
}

#[test]
fn entries_are_weighed_by_key_and_value() {
    let told = Told::new();
    let mut cache = Cache::builder()
        .max_capacity(20)
        .weigher(|key: &u32, value: &Vec<u8>| key + value.len() as u32)
        .eviction_listener(told.listener())
        .build();
    assert_eq!(cache.insert(1, vec![0; 9]), Insertion::New);
    assert_eq!(cache.insert(2, vec![0; 8]), Insertion::New);
    assert_eq!((cache.len(), cache.weighted_size()), (2, 20));
    assert_eq!(cache.insert(3, Vec::new()), Insertion::Rejected);
    assert_eq!(cache.insert(0, Vec::new()), Insertion::New);
    assert_eq!(told.take(), [(3, Vec::new(), Cause::Rejected)]);
    // A changed value is weighed again. It may be above the capacity until the next call.
    assert!(cache.modify(&2, |value| value.push(0)));
    assert_eq!((cache.len(), cache.weighted_size()), (3, 21));
    assert!(told.take().is_empty());
    assert_eq!(cache.get(&2), Some(&vec![0; 9]));
    assert_eq!((cache.len(), cache.weighted_size()), (2, 11));
    assert_eq!(told.take(), [(1, vec![0; 9], Cause::Size)]);
    assert_eq!(cache.insert(2, vec![0; 1]), Insertion::Replaced(vec![0; 9]));
    assert_eq!(cache.weighted_size(), 3);
    assert_eq!(*cache.get_or_insert_with(4, || vec![0; 6]), vec![0; 6]);
    assert_eq!(cache.weighted_size(), 13);
    let rejected = cache.get_or_insert_with(5, || vec![0; 16]);
    assert_eq!(rejected, ValueRef::Rejected(vec![0; 16]));
    assert_eq!(cache.weighted_size(), 13);
    assert_eq!(cache.policy().max_capacity(), Some(20));
}

#[test]
fn an_entry_that_is_evicted_before_its_write_leaves_by_size() {
    let told = Told::new();
    let mut cache = Cache::builder()
        .max_capacity(20)
        .weigher(|_: &u32, value: &u32| *value)
        .eviction_listener(told.listener())
        .build();
    for key in 0..4 {
        assert_eq!(cache.insert(key, 5), Insertion::New);
    }
    assert_eq!(cache.insert(3, 12), Insertion::Replaced(5));
    assert_eq!(cache.weighted_size(), 27);
    // The first two entries are evicted before the first one is written.
    assert!(!cache.modify(&0, |_| unreachable!()));
    let evicted = [(0, 5, Cause::Size), (1, 5, Cause::Size)];
    assert_eq!((told.take(), cache.weighted_size()), (evicted.into(), 17));
    assert_eq!(cache.insert(2, 9), Insertion::Replaced(5));
    assert_eq!(cache.weighted_size(), 21);
    assert!(!cache.contains_key(&3));
    assert_eq!(told.take(), [(3, 12, Cause::Size)]);
    assert_eq!(cache.insert(1, 12), Insertion::Rejected);
    assert_eq!(told.take(), [(1, 12, Cause::Rejected)]);
    // An update that is heavier than the capacity leaves in the next call.
    assert_eq!(cache.insert(2, 30), Insertion::Replaced(9));
    assert_eq!(cache.insert(2, 1), Insertion::New);
    assert_eq!(told.take(), [(2, 30, Cause::Size)]);
    assert_eq!((cache.len(), cache.weighted_size()), (1, 1));
}

#[test]
fn settings_reach_the_cache() {
    let second = SECOND;
    let builder = CacheBuilder::<u64, u64>::new(1000)
        .time_to_live(3 * second)
        .time_to_idle(2 * second)
        .window_share(20)
        .protected_share(30)
        .initial_capacity(70)
        .coarse_clock();
    let shown = format!("{builder:?}");
    assert_eq!(
        shown,
        "CacheBuilder { max_capacity: Some(1000), time_to_live: Some(3s), time_to_idle: Some(2s), \
         initial_capacity: 70, removed_room: 0, window_share: 20, protected_share: 30, \
         adaptive: false, clock: Coarse, has_listener: false, has_weigher: false }"
    );
    let cache = builder.build();
    let policy = cache.policy();
    assert_eq!(policy.max_capacity(), Some(1000));
    assert_eq!(policy.time_to_live(), Some(3 * second));
    assert_eq!(policy.time_to_idle(), Some(2 * second));
    assert_eq!(cache.window_capacity(), 200);
    let adaptive = CacheBuilder::<u64, u64>::new(500).adaptive();
    assert!(format!("{adaptive:?}").contains("protected_share: 80, adaptive: true"));
    assert_eq!(adaptive.build().window_capacity(), 5);
    let heard = CacheBuilder::<u64, u64>::default().eviction_listener(|_, _, _| ());
    assert!(format!("{heard:?}").contains("has_listener: true, has_weigher: false"));
    let weighed = CacheBuilder::<u64, u64>::default().weigher(|_, _| 2);
    assert!(format!("{weighed:?}").contains("has_listener: false, has_weigher: true"));
    assert_eq!(heard.build().policy().max_capacity(), None);
}

#[test]
fn impossible_settings_are_refused() {
    let builder = CacheBuilder::<u64, u64>::default;
    let refused = |builder: CacheBuilder<u64, u64>| builder.try_build().map(drop);
    let zero = Duration::ZERO;
    assert_eq!(
        refused(builder().time_to_live(zero)),
        Err(BuildError::ZeroDuration)
    );
    assert_eq!(
        refused(builder().window_share(101)),
        Err(BuildError::ShareTooLarge)
    );
    assert_eq!(
        refused(builder().initial_capacity(usize::MAX)),
        Err(BuildError::OutOfMemory)
    );
}

#[test]
#[should_panic(expected = "the cache can't be built: a duration is 0")]
fn build_panics_at_impossible_settings() {
    let _ = Cache::<u64, u64>::builder()
        .time_to_idle(Duration::ZERO)
        .build();
}
