//! Tests that threads which share a typed cache all end, find only values of their keys, and drop all
//! values, though `make` and the listener panic now and then.

mod common;

use common::{returns, Random};
use mini_moka_proved::sync::Cache;
use std::panic::{catch_unwind, set_hook, take_hook, AssertUnwindSafe};
use std::sync::atomic::{AtomicU64, Ordering};
use std::sync::Arc;
use std::thread;
use std::time::Duration;

const THREADS: u64 = 16;
const CALLS: u64 = 2000;
const KEYS: u64 = 50;

/// A value of a key, which counts the values that exist.
struct Value {
    key: u64,
    count: Arc<AtomicU64>,
}

impl Value {
    fn new(key: u64, count: &Arc<AtomicU64>) -> Value {
        count.fetch_add(1, Ordering::Relaxed);
        let count = Arc::clone(count);
        Value { key, count }
    }
}

impl Clone for Value {
    fn clone(&self) -> Value {
        Value::new(self.key, &self.count)
    }
}

impl Drop for Value {
    fn drop(&mut self) {
        self.count.fetch_sub(1, Ordering::Relaxed);
    }
}

/// Makes a random call.
fn call(cache: &Cache<u64, Value>, random: &mut Random, count: &Arc<AtomicU64>) {
    let key = random.below(KEYS);
    let luck = random.below(20);
    let found = match random.below(12) {
        0..=5 => Some(cache.get_with(key, || {
            assert!(luck > 0, "make panics");
            thread::yield_now();
            Value::new(key, count)
        })),
        6 | 7 => {
            let made = cache.try_get_with(key, || match luck {
                0..=6 => Err(key),
                _ => Ok(Value::new(key, count)),
            });
            made.map_err(|error| assert!(*error == key, "a wrong value"))
                .ok()
        }
        8 => {
            cache.insert(key, Value::new(key, count));
            None
        }
        9 => cache.remove(&key),
        10 => cache.get(&key),
        _ if luck == 0 => {
            cache.invalidate_all();
            None
        }
        _ => {
            cache.invalidate(&key);
            None
        }
    };
    assert!(
        found.map_or(true, |found| found.key == key),
        "a wrong value"
    );
}

/// Returns the calls that panicked for another reason than those that are meant, and the values that
/// are left.
fn play() -> (u64, u64) {
    let (count, told) = (Arc::new(AtomicU64::new(0)), AtomicU64::new(0));
    let cache = Cache::builder()
        .max_capacity(20)
        .segments(2)
        .time_to_live(Duration::from_micros(300))
        .eviction_listener(move |key: u64, value: Value, _| {
            assert!(value.key == key, "a wrong value");
            let told = told.fetch_add(1, Ordering::Relaxed);
            assert!(told % 50 > 0, "the listener panics");
        })
        .build();
    let threads: Vec<_> = (0..THREADS)
        .map(|number| {
            let (cache, count) = (cache.clone(), Arc::clone(&count));
            thread::spawn(move || {
                let mut random = Random(number);
                let mut wrong = 0;
                for _ in 0..CALLS {
                    let made = catch_unwind(AssertUnwindSafe(|| {
                        call(&cache, &mut random, &count);
                    }));
                    let reason = made.err().and_then(|panic| panic.downcast::<&str>().ok());
                    wrong += u64::from(reason.map_or(false, |reason| *reason == "a wrong value"));
                }
                wrong
            })
        })
        .collect();
    let wrong = threads.into_iter().map(|thread| thread.join().unwrap());
    let wrong = wrong.sum();
    drop(cache);
    (wrong, count.load(Ordering::Relaxed))
}

#[test]
fn threads_end_and_find_values_of_their_keys_though_calls_panic() {
    let hook = take_hook();
    set_hook(Box::new(|_| ()));
    let (wrong, left) = returns(play);
    set_hook(hook);
    assert_eq!((wrong, left), (0, 0));
}
