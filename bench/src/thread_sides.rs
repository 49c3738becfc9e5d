//! Shares the original's caches among threads: `sync::Cache`, and `unsync::Cache` with one lock around it.
use crate::rust_sides::{Multiply, Original, SharedOriginal};
use crate::thread_loads::Call;
use mini_moka::sync::ConcurrentCacheExt;
use std::hint::black_box;
use std::sync::{Barrier, Mutex, PoisonError};
use std::thread;
use std::time::Instant;

/// Outcome of a play, and its time, from the first thread's start to the last thread's end.
#[derive(Clone, Copy)]
pub struct Played {
    pub hits: u64,
    pub sum: u64,
    pub entries: u64,
    pub nanos: u64,
}

/// A cache that threads share.
pub trait ThreadSide: Sync {
    fn look(&self, key: u64) -> Option<u64>;
    fn put(&self, key: u64);
    /// Returns the entry count, which may be that of the last maintenance.
    fn count(&self) -> u64;
    /// Returns the number of entries after all delayed work is done.
    fn entries(&self) -> u64;
}

impl ThreadSide for SharedOriginal {
    fn look(&self, key: u64) -> Option<u64> {
        self.get(&key)
    }

    fn put(&self, key: u64) {
        self.insert(key, key);
    }

    fn count(&self) -> u64 {
        self.entry_count()
    }

    fn entries(&self) -> u64 {
        self.sync();
        self.entry_count()
    }
}

/// The original's single-thread cache, which threads use in turn.
struct Handed(Original<Multiply>);

// The cache's `Rc`s and its pointers to nodes never leave it: callers get copies of numbers. A lock around the whole keeps two threads from using a part of it
// at the same time.
unsafe impl Send for Handed {}

pub struct LockedOriginal(Mutex<Handed>);

impl LockedOriginal {
    pub fn new(cache: Original<Multiply>) -> LockedOriginal {
        LockedOriginal(Mutex::new(Handed(cache)))
    }

    fn with<T>(&self, call: impl FnOnce(&mut Original<Multiply>) -> T) -> T {
        let mut cache = self.0.lock().unwrap_or_else(PoisonError::into_inner);
        call(&mut cache.0)
    }
}

impl ThreadSide for LockedOriginal {
    fn look(&self, key: u64) -> Option<u64> {
        self.with(|cache| cache.get(&key).copied())
    }

    fn put(&self, key: u64) {
        self.with(|cache| cache.insert(key, key));
    }

    fn count(&self) -> u64 {
        self.with(|cache| cache.entry_count())
    }

    fn entries(&self) -> u64 {
        self.count()
    }
}

/// Outcome of one thread, and its start and end.
struct Part {
    hits: u64,
    sum: u64,
    begun: Instant,
    ended: Instant,
}

/// Fills the cache, and then plays each list on a thread of its own.
pub fn play<S: ThreadSide>(side: &S, filling: &[Call], lists: &[Vec<Call>]) -> Played {
    make_calls(side, filling);
    let together = Barrier::new(lists.len());
    let parts: Vec<Part> = thread::scope(|scope| {
        let threads: Vec<_> = lists
            .iter()
            .map(|calls| scope.spawn(|| play_list(side, &together, calls)))
            .collect();
        threads
            .into_iter()
            .map(|thread| thread.join().expect("a thread has panicked"))
            .collect()
    });
    let begun = parts.iter().map(|part| part.begun).min();
    let ended = parts.iter().map(|part| part.ended).max();
    let (Some(begun), Some(ended)) = (begun, ended) else {
        unreachable!("there is a thread");
    };
    Played {
        hits: parts.iter().map(|part| part.hits).sum(),
        sum: parts.iter().fold(0, |sum, part| sum.wrapping_add(part.sum)),
        entries: side.entries(),
        nanos: ended.duration_since(begun).as_nanos() as u64,
    }
}

/// Waits for all threads, and then makes the calls.
fn play_list<S: ThreadSide>(side: &S, together: &Barrier, calls: &[Call]) -> Part {
    together.wait();
    let begun = Instant::now();
    let (hits, sum) = make_calls(side, calls);
    Part {
        hits,
        sum,
        begun,
        ended: Instant::now(),
    }
}

/// Makes the calls, and returns the number of gets that found their key and the sum of their values.
fn make_calls<S: ThreadSide>(side: &S, calls: &[Call]) -> (u64, u64) {
    let (mut hits, mut sum) = (0, 0u64);
    for call in calls {
        match *call {
            Call::Get(key) => {
                if let Some(value) = side.look(key) {
                    hits += 1;
                    sum = sum.wrapping_add(value);
                }
            }
            Call::Insert(key) => side.put(key),
            Call::Count => {
                black_box(side.count());
            }
            Call::Sync => {
                black_box(side.entries());
            }
        }
    }
    (hits, sum)
}
