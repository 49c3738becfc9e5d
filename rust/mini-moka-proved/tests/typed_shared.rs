//! Tests typed caches that threads share.

mod common;

use common::{returns, Random, Remainder, Told, SECOND};
use mini_moka_proved::sync::{Cache, CacheBuilder};
use mini_moka_proved::{BuildError, Cause, Insertion, ManualClock};
use std::cell::{Cell, RefCell};
use std::collections::hash_map::RandomState;
use std::collections::HashMap;
use std::hash::{BuildHasher, Hash, Hasher};
use std::panic::{catch_unwind, AssertUnwindSafe};
use std::sync::atomic::{AtomicBool, AtomicU32, Ordering};
use std::sync::{Arc, Barrier, Mutex};
use std::thread;
use std::time::Duration;

/// The keys of a thread.
const KEYS: u64 = 200;

/// Makes calls on the keys of a thread, and compares the answers with a model.
fn work<S: BuildHasher>(cache: &Cache<u64, String, S>, thread: u64) {
    let mut random = Random(thread);
    let mut model: HashMap<u64, String> = HashMap::new();
    for call in 0..4000 {
        let number = random.below(KEYS);
        let key = thread * KEYS + number;
        let value = format!("{thread} {number} {call}");
        match random.below(9) {
            0..=2 => match cache.insert(key, value.clone()) {
                Insertion::Rejected => drop(model.remove(&number)),
                Insertion::Replaced(old) => {
                    assert_eq!(model.insert(number, value), Some(old));
                }
                Insertion::New => drop(model.insert(number, value)),
            },
            3 | 4 => {
                if let Some(found) = cache.get(&key) {
                    assert_eq!(model.get(&number), Some(&found));
                }
            }
            5 => match cache.remove(&key) {
                Some(removed) => assert_eq!(model.remove(&number), Some(removed)),
                None => drop(model.remove(&number)),
            },
            6 => {
                let found = cache.get_with(key, || value.clone());
                if found != value {
                    assert_eq!(model.get(&number), Some(&found));
                }
                model.insert(number, found);
            }
            7 => {
                let modified = cache.modify(&key, |found| {
                    assert_eq!(model.get(&number), Some(&*found));
                    found.push('+');
                });
                if modified {
                    model.get_mut(&number).unwrap().push('+');
                }
            }
            _ => {
                if let Some(found) = cache.peek(&key) {
                    assert_eq!(model.get(&number), Some(&found));
                } else {
                    assert!(!cache.contains_key(&key));
                }
            }
        }
    }
}

#[test]
fn eight_threads_find_what_they_inserted_last() {
    eight_threads(RandomState::new());
}

#[test]
fn eight_threads_whose_hashes_collide_do_so_too() {
    eight_threads(Remainder(40));
    eight_threads(Remainder(7));
}

fn eight_threads<S: BuildHasher + Send + Sync + 'static>(hasher: S) {
    let told = Told::new();
    let cache = Cache::builder()
        .max_capacity(800)
        .segments(8)
        .eviction_listener(told.listener())
        .build_with_hasher(hasher);
    let threads: Vec<_> = (0..8)
        .map(|number| {
            let cache = cache.clone();
            thread::spawn(move || work(&cache, number))
        })
        .collect();
    for thread in threads {
        thread.join().unwrap();
    }
    let counts = cache.statistics();
    let left = counts.evictions + counts.expirations + counts.removals;
    assert_eq!(
        counts.inserts - counts.updates - counts.rejections,
        left + cache.entry_count()
    );
    assert!(cache.len() <= 800 && counts.evictions > 100, "{counts:?}");
    let told = told.take();
    let evicted = told.iter().filter(|told| told.2 == Cause::Size).count();
    assert_eq!(evicted as u64, counts.evictions);
    for (key, value, _) in told {
        let (thread, number) = (key / KEYS, key % KEYS);
        assert!(value.starts_with(&format!("{thread} {number} ")), "{value}");
    }
}

#[test]
fn sixteen_threads_make_each_value_once() {
    let cache = Cache::new(10_000);
    let (made, start) = (AtomicU32::new(0), Barrier::new(16));
    thread::scope(|scope| {
        for _ in 0..16 {
            scope.spawn(|| {
                start.wait();
                for key in 0..1000u64 {
                    let value = cache.get_with(key, || {
                        made.fetch_add(1, Ordering::Relaxed);
                        thread::yield_now();
                        format!("value {key}")
                    });
                    assert_eq!(value, format!("value {key}"));
                }
            });
        }
    });
    assert_eq!(made.into_inner(), 1000);
    assert_eq!((cache.len(), cache.statistics().inserts), (1000, 1000));
}

/// A key that notes when it is compared. A thread that compares it with the key of a value that is
/// being made waits for that value from then on.
#[derive(Clone)]
struct Watched {
    number: u64,
    is_compared: Arc<AtomicBool>,
}

impl Watched {
    fn new(number: u64) -> Watched {
        Watched {
            number,
            is_compared: Arc::default(),
        }
    }

    /// Returns once another thread waits.
    fn wait(&self) {
        while !self.is_compared.load(Ordering::Acquire) {
            thread::yield_now();
        }
    }
}

impl PartialEq for Watched {
    fn eq(&self, other: &Watched) -> bool {
        self.is_compared.store(true, Ordering::Release);
        self.number == other.number
    }
}

impl Eq for Watched {}

impl Hash for Watched {
    fn hash<H: Hasher>(&self, state: &mut H) {
        state.write_u64(self.number);
    }
}

type Made = Result<String, Arc<String>>;

/// Lets a thread make a value, and another one wait for it. `first` runs once the other one waits.
/// Returns what both get, or `None` for a panic.
fn make_and_wait<E: Send + Sync + 'static>(
    cache: &Cache<Watched, String, Remainder>,
    first: impl FnOnce() -> Result<String, String> + Send,
    second: impl FnOnce() -> Result<String, E> + Send,
) -> (Option<Made>, Result<String, Arc<E>>) {
    let key = Watched::new(7);
    let begun = Barrier::new(2);
    thread::scope(|scope| {
        let maker = scope.spawn(|| {
            cache.try_get_with(key.clone(), || {
                begun.wait();
                key.wait();
                first()
            })
        });
        begun.wait();
        let waited = cache.try_get_with(key.clone(), second);
        (maker.join().ok(), waited)
    })
}

fn watched(capacity: u64) -> Cache<Watched, String, Remainder> {
    let builder = Cache::builder().max_capacity(capacity).segments(1);
    builder.build_with_hasher(Remainder(1))
}

#[test]
fn a_thread_that_waits_gets_the_value_even_if_it_is_rejected() {
    for capacity in [0, 100] {
        let (made, waited) = returns(move || {
            make_and_wait(
                &watched(capacity),
                || Ok("made".to_string()),
                || -> Result<String, String> { panic!("it waits instead") },
            )
        });
        assert_eq!(made, Some(Ok("made".to_string())));
        assert_eq!(waited, Ok("made".to_string()));
    }
}

#[test]
fn a_thread_that_waits_makes_the_value_itself_if_make_panics() {
    let (made, waited, found) = returns(|| {
        let cache = watched(100);
        let (made, waited) = make_and_wait(
            &cache,
            || panic!("make panics"),
            || Ok::<_, String>("second".to_string()),
        );
        (made, waited, cache.get(&Watched::new(7)))
    });
    assert_eq!(made, None);
    assert_eq!(waited, Ok("second".to_string()));
    assert_eq!(found, Some("second".to_string()));
}

#[test]
fn a_listener_that_panics_before_make_leaves_the_key_to_others() {
    let clock = ManualClock::new();
    let cache = Cache::builder()
        .segments(1)
        .time_to_live(SECOND)
        .manual_clock(&clock)
        .eviction_listener(|_, _, _| panic!("the listener panics"))
        .build();
    cache.insert(1, "old");
    clock.advance(SECOND);
    let made = catch_unwind(AssertUnwindSafe(|| {
        cache.get_with(2, || unreachable!("the listener panics first"))
    }));
    assert!(made.is_err());
    assert_eq!(returns(move || cache.get_with(2, || "made")), "made");
}

#[test]
fn a_thread_that_waits_gets_the_error_if_its_type_is_the_same() {
    let (made, waited, next) = returns(|| {
        let cache = watched(100);
        let (made, waited) = make_and_wait(
            &cache,
            || Err("no".to_string()),
            || -> Result<String, String> { panic!("it waits instead") },
        );
        let next = cache.try_get_with(Watched::new(7), || Ok::<_, String>("next".to_string()));
        (made, waited, next)
    });
    let (first, second) = (made.unwrap().unwrap_err(), waited.unwrap_err());
    assert!(Arc::ptr_eq(&first, &second) && *first == "no");
    assert_eq!(next, Ok("next".to_string()));

    let (made, waited) = returns(|| {
        make_and_wait(
            &watched(100),
            || Err("no".to_string()),
            || Err::<String, u32>(7),
        )
    });
    assert_eq!(made, Some(Err(Arc::new("no".to_string()))));
    assert_eq!(waited, Err(Arc::new(7)));
}

#[test]
fn a_value_that_fails_to_clone_is_made_again() {
    /// A value whose first clone panics.
    struct Fragile(Arc<AtomicU32>);
    impl Clone for Fragile {
        fn clone(&self) -> Fragile {
            assert!(
                self.0.fetch_add(1, Ordering::Relaxed) > 0,
                "the first clone"
            );
            Fragile(Arc::clone(&self.0))
        }
    }
    let cache: Cache<u64, Fragile> = Cache::new(100);
    let clones = Arc::new(AtomicU32::new(0));
    let made = catch_unwind(AssertUnwindSafe(|| {
        cache.get_with(7, || Fragile(Arc::clone(&clones)));
    }));
    assert!(made.is_err() && cache.is_empty());
    assert_eq!(Arc::strong_count(&clones), 1);
    returns(move || {
        cache
            .get_with(7, || Fragile(clones))
            .0
            .load(Ordering::Relaxed)
    });
}

thread_local! {
    /// True if `Fragile` is to panic.
    static IS_FRAGILE: Cell<bool> = const { Cell::new(false) };
}

/// A key and a value that panics when it is compared or cloned.
#[derive(Debug, Eq)]
struct Fragile(u64);

fn panic_if_fragile() {
    assert!(!IS_FRAGILE.with(Cell::get), "fragile");
}

impl PartialEq for Fragile {
    fn eq(&self, other: &Fragile) -> bool {
        panic_if_fragile();
        self.0 == other.0
    }
}

impl Hash for Fragile {
    fn hash<H: Hasher>(&self, state: &mut H) {
        state.write_u64(self.0);
    }
}

impl Clone for Fragile {
    fn clone(&self) -> Fragile {
        panic_if_fragile();
        Fragile(self.0)
    }
}

#[test]
fn a_panic_under_a_lock_leaves_a_usable_cache() {
    let builder = Cache::builder().segments(1);
    let cache: &Cache<Fragile, Fragile, _> = &builder.build_with_hasher(Remainder(2));
    for number in 0..4 {
        cache.insert(Fragile(number), Fragile(10 + number));
    }
    let calls: [&dyn Fn() -> bool; 8] = [
        &|| cache.get(&Fragile(1)).is_some(),
        &|| cache.peek(&Fragile(1)).is_some(),
        &|| cache.insert(Fragile(1), Fragile(0)) == Insertion::New,
        &|| cache.remove(&Fragile(1)).is_some(),
        &|| {
            cache.invalidate(&Fragile(1));
            true
        },
        &|| cache.contains_key(&Fragile(1)),
        &|| cache.get_with(Fragile(1), || Fragile(0)).0 == 0,
        &|| cache.iter().next().is_some(),
    ];
    for (at, call) in calls.iter().enumerate() {
        IS_FRAGILE.with(|it| it.set(true));
        let made = catch_unwind(AssertUnwindSafe(call));
        IS_FRAGILE.with(|it| it.set(false));
        assert!(made.is_err(), "{at}");
        for number in 0..4 {
            let found = cache.get(&Fragile(number));
            assert_eq!(found, Some(Fragile(10 + number)), "{at}");
        }
        assert_eq!(cache.iter().count(), 4);
    }
    // A value whose clone panics is dropped, and the next call makes one.
    let made = catch_unwind(AssertUnwindSafe(|| {
        cache.get_with(Fragile(9), || {
            IS_FRAGILE.with(|it| it.set(true));
            Fragile(19)
        })
    }));
    IS_FRAGILE.with(|it| it.set(false));
    assert!(made.is_err() && cache.len() == 4);
    assert_eq!(cache.get_with(Fragile(9), || Fragile(20)), Fragile(20));
}

#[test]
fn make_may_call_the_cache_but_not_for_its_own_key() {
    let (found, own) = returns(|| {
        let cache = Cache::builder().segments(1).build();
        let found = cache.get_with(1, || cache.get_with(2, || 20) + cache.get(&2).unwrap_or(0));
        let own = catch_unwind(AssertUnwindSafe(|| {
            cache.get_with(3, || cache.get_with(3, || 30))
        }));
        assert_eq!(cache.get_with(3, || 33), 33);
        (found, own.is_err())
    });
    assert_eq!((found, own), (40, true));
}

#[test]
fn what_a_made_value_replaces_or_its_rejection_is_told() {
    let told = Told::new();
    let cache = Cache::builder()
        .max_capacity(10)
        .eviction_listener(told.listener())
        .build();
    let made = cache.get_with(1, || {
        cache.insert(1, "between");
        "made"
    });
    assert_eq!(made, "made");
    assert_eq!(cache.get(&1), Some("made"));
    assert_eq!(told.take(), [(1, "between", Cause::Replaced)]);
    let none = Cache::builder()
        .max_capacity(0)
        .eviction_listener(told.listener())
        .build();
    assert_eq!(none.get_with(1, || "made"), "made");
    assert_eq!(told.take(), [(1, "made", Cause::Rejected)]);
}

thread_local! {
    /// The cache that `Calling` calls.
    static CALLED: RefCell<Option<Cache<Calling, Calling>>> = const { RefCell::new(None) };
}

/// A key and a value that calls the cache when it is hashed or dropped.
#[derive(Clone, PartialEq, Eq, Debug)]
struct Calling(u64);

fn call_the_cache() {
    // While it calls, what it drops doesn't call again.
    if let Some(cache) = CALLED.with(RefCell::take) {
        assert!(!cache.contains_key(&Calling(1000)));
        assert_eq!(cache.remove(&Calling(1001)), None);
        assert!(cache.len() < 100);
        CALLED.with(|called| called.replace(Some(cache)));
    }
}

impl Hash for Calling {
    fn hash<H: Hasher>(&self, state: &mut H) {
        call_the_cache();
        self.0.hash(state);
    }
}

impl Drop for Calling {
    fn drop(&mut self) {
        call_the_cache();
    }
}

#[test]
fn code_of_the_program_runs_while_no_lock_is_held() {
    let calls = returns(|| {
        let calls = Arc::new(AtomicU32::new(0));
        let heard = Arc::clone(&calls);
        let cache = Cache::builder()
            .max_capacity(5)
            .segments(1)
            .eviction_listener(move |_, _, _| {
                call_the_cache();
                heard.fetch_add(1, Ordering::Relaxed);
            })
            .build();
        CALLED.with(|called| called.replace(Some(cache.clone())));
        for number in 0..20 {
            cache.insert(Calling(number), Calling(number));
            cache.insert(Calling(number), Calling(number + 1));
            let _ = cache.get(&Calling(number));
            let _ = cache.get_with(Calling(number / 2), || Calling(number));
            let _ = cache.try_get_with(Calling(number + 50), || Err::<Calling, _>("no"));
            let _ = cache.peek(&Calling(number));
        }
        let _ = cache.remove(&Calling(0));
        cache.invalidate(&Calling(1));
        cache.invalidate_all();
        CALLED.with(RefCell::take);
        calls.load(Ordering::Relaxed)
    });
    assert!(calls > 5, "{calls}");
}

#[test]
fn a_listener_that_panicked_gets_the_others_in_the_next_call() {
    let told = Told::new();
    let hear = told.listener();
    let cache = Cache::builder()
        .segments(1)
        .eviction_listener(move |key: u64, value: u64, cause| {
            hear(key, value, cause);
            assert!(key != 1, "the listener panics");
        })
        .build();
    for number in 0..4 {
        cache.insert(number, number * number);
    }
    let cleared = catch_unwind(AssertUnwindSafe(|| cache.invalidate_all()));
    assert!(cleared.is_err() && cache.is_empty());
    let mut all = told.take();
    assert!(all.len() < 4);
    cache.insert(9, 81);
    cache.invalidate(&9);
    all.extend(told.take());
    assert_eq!(all.last(), Some(&(9, 81, Cause::Explicit)));
    all.sort_unstable_by_key(|told| told.0);
    let keys: Vec<u64> = all.iter().map(|told| told.0).collect();
    assert_eq!(keys, [0, 1, 2, 3, 9]);
}

#[test]
fn a_listener_that_panicked_in_a_call_of_the_listener_gets_the_others_too() {
    let told = Told::new();
    let hear = told.listener();
    let inner: Arc<Mutex<Option<Cache<u64, u64>>>> = Arc::default();
    let seen = Arc::clone(&inner);
    let cache = Cache::builder()
        .segments(1)
        .eviction_listener(move |key: u64, value: u64, cause| {
            hear(key, value, cause);
            let cache = seen.lock().unwrap().take();
            if let Some(cache) = cache {
                cache.insert(10, 100);
                cache.insert(11, 110);
                cache.invalidate_all();
            }
            assert!(value < 100 || key == 11, "the listener panics");
        })
        .build();
    for number in 0..4 {
        cache.insert(number, number);
    }
    *inner.lock().unwrap() = Some(cache.clone());
    let cleared = catch_unwind(AssertUnwindSafe(|| cache.invalidate_all()));
    assert!(cleared.is_err() && cache.is_empty());
    let first = told.take();
    assert_eq!(first.len(), 2);
    let _ = cache.get(&0);
    let mut keys: Vec<u64> = first
        .iter()
        .chain(&told.take())
        .map(|told| told.0)
        .collect();
    // Those of the first call come before that of the second one.
    assert!(matches!(keys[2..], [_, _, _, 10 | 11]));
    keys.sort_unstable();
    assert_eq!(keys, [0, 1, 2, 3, 10, 11]);
}

#[test]
fn an_insert_tells_of_a_rejected_entry() {
    let told = Told::new();
    let cache = Cache::builder()
        .max_capacity(0)
        .eviction_listener(told.listener())
        .build();
    assert_eq!(cache.insert(1, "one"), Insertion::Rejected);
    assert_eq!(told.take(), [(1, "one", Cause::Rejected)]);
}

#[test]
fn a_value_for_which_no_thread_waits_is_cloned_once() {
    /// A value that counts its clones.
    #[derive(Default)]
    struct Counted(Arc<AtomicU32>);
    impl Clone for Counted {
        fn clone(&self) -> Counted {
            self.0.fetch_add(1, Ordering::Relaxed);
            Counted(Arc::clone(&self.0))
        }
    }
    let cache = Cache::new(100);
    let made = cache.get_with(7, Counted::default);
    assert_eq!(made.0.load(Ordering::Relaxed), 1);
}

#[test]
fn an_iterator_and_counts_are_those_of_all_segments() {
    let clock = ManualClock::new();
    let cache = Cache::builder()
        .max_capacity(1600)
        .segments(4)
        .time_to_live(10 * SECOND)
        .manual_clock(&clock)
        .build();
    for number in 0..50u64 {
        cache.insert(number, number.to_string());
    }
    clock.advance(5 * SECOND);
    for number in 50..60u64 {
        cache.insert(number, number.to_string());
    }
    clock.advance(5 * SECOND);
    let mut pairs: Vec<_> = cache.iter().map(|entry| entry.into_pair()).collect();
    pairs.sort_unstable();
    let wanted: Vec<_> = (50..60)
        .map(|number: u64| (number, number.to_string()))
        .collect();
    assert_eq!(pairs, wanted);
    let mut iter = cache.iter();
    assert_eq!(iter.size_hint(), (0, None));
    let entry = iter.next().unwrap();
    assert_eq!(entry.pair(), (entry.key(), entry.value()));
    assert_eq!(
        (entry.key().to_string(), entry.len()),
        (entry.value().clone(), 2)
    );
    let rest = iter.by_ref().count();
    assert_eq!((rest, iter.size_hint()), (9, (0, Some(0))));
    assert_eq!((&cache).into_iter().count(), 10);
    assert_eq!(cache.len(), 60);
    assert_eq!(
        (cache.get(&55), cache.get(&5)),
        (Some("55".to_string()), None)
    );
    assert!(cache.contains_key(&56) && !cache.contains_key(&6));
    assert_eq!((cache.statistics().hits, cache.statistics().misses), (1, 1));
    cache.clear();
    assert!(cache.is_empty());
    assert_eq!((cache.entry_count(), cache.weighted_size()), (0, 0));
    assert_eq!(cache.now(), 10 * SECOND);
}

#[test]
fn keys_whose_hashes_differ_in_few_bits_are_spread_over_segments() {
    let told = Told::new();
    let cache = Cache::builder()
        .max_capacity(1600)
        .segments(16)
        .eviction_listener(told.listener())
        .build_with_hasher(Remainder(0));
    for number in 0..800u64 {
        cache.insert(number, ());
    }
    // A segment has place for a sixteenth of the capacity, which is two sixteenths of the keys.
    assert_eq!((told.take(), cache.len()), (Vec::new(), 800));
}

#[test]
fn settings_reach_the_segments() {
    let builder = CacheBuilder::<u64, u64>::new(1000)
        .time_to_live(3 * SECOND)
        .window_share(20);
    let segments = |builder: CacheBuilder<u64, u64>| builder.build().segments();
    assert_eq!(segments(CacheBuilder::new(199)), 1);
    assert_eq!(segments(CacheBuilder::new(200)), 2);
    assert_eq!(segments(CacheBuilder::new(5000)), 16);
    assert_eq!(segments(CacheBuilder::default()), 16);
    assert_eq!(segments(CacheBuilder::new(5000).segments(0)), 1);
    let shown = format!("{:?}", CacheBuilder::<u64, u64>::new(7).segments(3));
    assert!(
        shown.ends_with("segments: Some(3), has_listener: false, has_weigher: false }"),
        "{shown}"
    );
    let cache = builder.build();
    assert_eq!((cache.segments(), cache.window_capacity()), (10, 200));
    assert_eq!(cache.policy().max_capacity(), Some(1000));
    assert_eq!(cache.policy().time_to_live(), Some(3 * SECOND));
    assert_eq!(cache.policy().time_to_idle(), None);
    assert_eq!(format!("{cache:?}"), "Cache { len: 0, segments: 10, .. }");
    // The parts of the capacity add up.
    let cache = Cache::builder().max_capacity(7).segments(3).build();
    for number in 0..1000 {
        cache.insert(number, number);
    }
    assert_eq!(cache.len(), 7);
    let refused = CacheBuilder::<u64, u64>::default().time_to_live(Duration::ZERO);
    assert_eq!(refused.try_build().map(drop), Err(BuildError::ZeroDuration));
}

#[test]
#[should_panic(expected = "the cache can't be built: a share is above 100 percent")]
fn build_panics_at_impossible_settings() {
    let _ = Cache::<u64, u64>::builder().protected_share(101).build();
}

#[test]
fn it_is_send_and_sync_if_its_parts_are() {
    fn may_be_shared<T: Send + Sync>() {}
    may_be_shared::<Cache<String, Vec<u8>>>();
    // A value needn't be `Sync`, since each is used under a lock.
    may_be_shared::<Cache<u64, Cell<u8>>>();
    may_be_shared::<Mutex<mini_moka_proved::Cache<u64, u64>>>();
}

#[test]
fn no_call_comes_between_a_modification() {
    let cache = Cache::new(1000);
    cache.insert("count", 0);
    thread::scope(|scope| {
        for _ in 0..4 {
            scope.spawn(|| {
                for _ in 0..1000 {
                    assert!(cache.modify("count", |count| *count += 1));
                    assert!(!cache.modify("none", |_| unreachable!()));
                }
            });
        }
    });
    assert_eq!(cache.get("count"), Some(4000));
}

#[test]
fn expired_entries_leave_all_segments() {
    let (told, clock) = (Told::new(), ManualClock::new());
    let cache = Cache::builder()
        .segments(4)
        .time_to_live(SECOND)
        .eviction_listener(told.listener())
        .manual_clock(&clock)
        .build();
    for key in 0..5000u64 {
        cache.insert(key, ());
    }
    cache.remove_expired();
    assert_eq!(cache.len(), 5000);
    clock.advance(SECOND);
    cache.remove_expired();
    assert_eq!((cache.len(), cache.statistics().expirations), (0, 5000));
    let mut told = told.take();
    told.sort_by_key(|entry| entry.0);
    let wanted = (0..5000).map(|key| (key, (), Cause::Expired));
    assert!(told.into_iter().eq(wanted));
}

#[test]
fn shared_entries_are_weighed() {
    let builder = Cache::<u64, String>::builder().weigher(|_, value| value.len() as u32);
    assert!(format!("{builder:?}").contains("has_listener: false, has_weigher: true"));
    let cache = builder.max_capacity(40).segments(2).build();
    cache.insert(1, "seven".to_string());
    assert_eq!(cache.get_with(2, || "eighty".to_string()), "eighty");
    assert!(cache.modify(&1, |value| value.push_str("ty")));
    assert_eq!((cache.len(), cache.weighted_size()), (2, 13));
    // A segment has half of the capacity.
    let long = "a value of 21 letters".to_string();
    assert_eq!(cache.insert(3, long.clone()), Insertion::Rejected);
    assert_eq!(cache.get_with(3, || long.clone()), long);
    assert_eq!((cache.get(&3), cache.weighted_size()), (None, 13));
    assert_eq!(
        cache.insert(1, String::new()),
        Insertion::Replaced("seventy".to_string())
    );
    assert_eq!((cache.len(), cache.weighted_size()), (2, 6));
    // By default a segment has a capacity of 2^20 at least.
    for (capacity, segments) in [(1000, 1), (3 << 20, 3), (1 << 30, 16)] {
        let weighed = Cache::<u64, u64>::builder().weigher(|_, _| 1);
        assert_eq!(weighed.max_capacity(capacity).build().segments(), segments);
    }
}

#[test]
fn a_weigher_may_call_the_cache_at_an_insert() {
    returns(|| {
        let asked: Arc<Mutex<Option<Cache<u64, u64>>>> = Arc::default();
        let asking = Arc::clone(&asked);
        let cache = Cache::builder()
            .segments(1)
            .weigher(move |_, _| {
                let asked = asking.lock().unwrap();
                asked.as_ref().map_or(0, |cache| cache.len() as u32 + 1)
            })
            .build();
        *asked.lock().unwrap() = Some(cache.clone());
        cache.insert(1, 1);
        cache.insert(2, 2);
        assert_eq!(cache.weighted_size(), 3);
        *asked.lock().unwrap() = None;
    });
}

#[test]
fn a_weigher_that_panics_leaves_the_cache_as_it_was() {
    let cache = Cache::builder()
        .weigher(|_: &u64, value: &u64| {
            assert!(*value < 100);
            1
        })
        .build();
    cache.insert(1, 1);
    let insert = || cache.insert(2, 100);
    assert!(catch_unwind(AssertUnwindSafe(insert)).is_err());
    let make = || cache.get_with(3, || 100);
    assert!(catch_unwind(AssertUnwindSafe(make)).is_err());
    let change = || cache.modify(&1, |value| *value = 100);
    assert!(catch_unwind(AssertUnwindSafe(change)).is_err());
    assert_eq!(
        (cache.get(&1), cache.get(&2), cache.get(&3)),
        (Some(100), None, None)
    );
    // Nobody waits for the value that was not inserted.
    assert_eq!(cache.get_with(3, || 3), 3);
    assert_eq!((cache.len(), cache.weighted_size()), (2, 2));
}
