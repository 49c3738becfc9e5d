//! Tests that a typed cache loses nothing if the program's code panics: `Eq` and `Hash` of keys, the
//! drop of a value, `make`, a predicate, a weigher and a listener.

mod common;

use common::{Random, Remainder, Told};
use mini_moka_proved::{Cache, Cause};
use std::cell::Cell;
use std::collections::{HashMap, HashSet};
use std::hash::{Hash, Hasher};
use std::panic::{catch_unwind, set_hook, take_hook, AssertUnwindSafe};
use std::thread::panicking;

thread_local! {
    /// The number of steps of the program's code until one panics.
    static FUSE: Cell<Option<u32>> = const { Cell::new(None) };
    /// The number of values that exist.
    static VALUES: Cell<usize> = const { Cell::new(0) };
}

/// A step of the program's code. It panics if it is the one that is chosen.
fn step() {
    if panicking() {
        return;
    }
    FUSE.with(|fuse| match fuse.get() {
        Some(0) => {
            fuse.set(None);
            panic!("the chosen step");
        }
        Some(steps) => fuse.set(Some(steps - 1)),
        None => {}
    });
}

#[derive(Debug)]
struct Key(u64);

impl PartialEq for Key {
    fn eq(&self, other: &Key) -> bool {
        step();
        self.0 == other.0
    }
}

impl Eq for Key {}

impl Hash for Key {
    fn hash<H: Hasher>(&self, state: &mut H) {
        step();
        state.write_u64(self.0);
    }
}

struct Value(u64);

impl Value {
    fn new(number: u64) -> Value {
        VALUES.with(|values| values.set(values.get() + 1));
        Value(number)
    }
}

impl Drop for Value {
    fn drop(&mut self) {
        VALUES.with(|values| values.set(values.get() - 1));
        step();
    }
}

/// The values that a key may have. If a call panicked, it may have been made or not.
type Model = HashMap<u64, HashSet<Option<u64>>>;

struct Tried {
    cache: Cache<Key, Value, Remainder>,
    model: Model,
}

impl Tried {
    fn new(random: &mut Random) -> Tried {
        // The listener's steps come after it has the entry.
        let listener = |_: Key, _: Value, _: Cause| step();
        let builder = Cache::builder().max_capacity([5, 30, 150][random.below(3) as usize]);
        let weigher = |_: &Key, value: &Value| {
            step();
            (value.0 % 3) as u32
        };
        let builder = match random.below(2) {
            0 => builder.eviction_listener(listener),
            _ => builder,
        };
        Tried {
            cache: match random.below(2) {
                0 => builder.weigher(weigher),
                _ => builder,
            }
            .build_with_hasher(Remainder([0, 1, 3, 7][random.below(4) as usize])),
            model: Model::new(),
        }
    }

    /// Makes a call, one step of which may panic. Returns `true` if it did.
    fn call(&mut self, call: u64, number: u64, value: u64, fuse: Option<u32>) -> bool {
        let cache = &mut self.cache;
        FUSE.with(|it| it.set(fuse));
        let made = catch_unwind(AssertUnwindSafe(|| match call {
            0..=2 => drop(cache.insert(Key(number), Value::new(value))),
            3 => drop(cache.get_or_insert_with(Key(number), || {
                step();
                Value::new(value)
            })),
            4 => drop(cache.remove(&Key(number))),
            5 => cache.invalidate(&Key(number)),
            6 => cache.invalidate_entries_if(|key, _| {
                step();
                key.0 == number
            }),
            7 => cache.invalidate_all(),
            9 => drop(cache.modify(&Key(number), |old| {
                step();
                *old = Value::new(value);
            })),
            _ => drop(cache.get(&Key(number)).map(|found| found.0)),
        }));
        // The caller gets the panic.
        let panicked = fuse.is_some() && FUSE.with(Cell::get).is_none();
        assert_eq!(made.is_err(), panicked);
        FUSE.with(|it| it.set(None));
        let allowed = self.model.entry(number).or_default();
        match call {
            0..=3 | 9 => drop(allowed.insert(Some(value))),
            _ => drop(allowed.insert(None)),
        }
        made.is_err()
    }

    /// Compares the cache with the model, and with the number of values.
    fn compare(&mut self) {
        // This call drops what a panic has left.
        assert!(!self.cache.contains_key(&Key(u64::MAX)));
        assert_eq!(VALUES.with(Cell::get), self.cache.len());
        assert_eq!(self.cache.iter().count(), self.cache.len());
        for (key, value) in &self.cache {
            assert!(self.model[&key.0].contains(&Some(value.0)), "{key:?}");
        }
        let numbers: Vec<u64> = self.cache.iter().map(|(key, _)| key.0).collect();
        for number in &numbers {
            assert!(self.cache.contains_key(&Key(*number)), "{number}");
        }
        let distinct: HashSet<&u64> = numbers.iter().collect();
        assert_eq!(distinct.len(), numbers.len());
    }

    /// Makes a call that succeeds. Then the key has what the call gave it.
    fn settle(&mut self, number: u64, value: u64) {
        drop(self.cache.insert(Key(number), Value::new(value)));
        let found = self.cache.peek(&Key(number)).map(|found| found.0);
        assert!(found.is_none() || found == Some(value));
        self.model.insert(number, HashSet::from([found]));
    }
}

#[test]
fn a_panic_of_the_programs_code_loses_nothing() {
    let hook = take_hook();
    set_hook(Box::new(|_| ()));
    let mut panics = [0; 10];
    for seed in 0..30 {
        let mut random = Random(seed);
        let mut tried = Tried::new(&mut random);
        for value in 0..800 {
            let call = match random.below(40) {
                0 => 7,
                1 => 6,
                2..=7 => 8,
                8..=11 => 9,
                other => other % 6,
            };
            let fuse = (random.below(2) == 0).then(|| random.below(6) as u32);
            let number = random.below(60);
            if tried.call(call, number, value, fuse) {
                panics[call as usize] += 1;
            }
            tried.compare();
            if value % 3 == 0 {
                tried.settle(number, 1000 + value);
            }
        }
        drop(tried);
        assert_eq!(VALUES.with(Cell::get), 0);
    }
    set_hook(hook);
    assert!(panics.iter().all(|count| *count > 10), "{panics:?}");
}

#[test]
fn a_listener_that_panicked_gets_the_others_in_the_next_call() {
    let told = Told::new();
    let hear = told.listener();
    let mut cache = Cache::builder()
        .max_capacity(10)
        .eviction_listener(move |key: u64, value: u64, cause| {
            hear(key, value, cause);
            assert!(key != 1, "the listener panics");
        })
        .build();
    for number in 0..4 {
        cache.insert(number, number * number);
    }
    let cleared = catch_unwind(AssertUnwindSafe(|| cache.invalidate_all()));
    assert!(cleared.is_err() && cache.is_empty());
    let mut all = told.take();
    assert_eq!(all.last(), Some(&(1, 1, Cause::Explicit)));
    assert!(all.len() < 4);
    let _ = cache.get(&7);
    all.extend(told.take());
    all.sort_unstable_by_key(|told| told.0);
    let wanted: Vec<_> = (0..4)
        .map(|key| (key, key * key, Cause::Explicit))
        .collect();
    assert_eq!(all, wanted);
}
