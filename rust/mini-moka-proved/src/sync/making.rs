//! Values that threads are making, each for all threads that ask for its key.

use super::lock::Lock;
use std::any::Any;
use std::borrow::Borrow;
use std::sync::{Arc, Condvar};

/// The error of a `make`, of any type.
pub(super) type AnyError = Arc<dyn Any + Send + Sync>;

thread_local! {
    /// A place of each thread, whose address tells it from the other threads that run.
    static PLACE: u8 = const { 0 };
}

/// Returns a number of the current thread. A `ThreadId` would take a count in shared memory.
fn this_thread() -> usize {
    PLACE.with(|place| place as *const u8 as usize)
}

/// A value that a thread makes, and for which others wait.
pub(super) struct Making<V> {
    maker: usize,
    outcome: Lock<Outcome<V>>,
    ended: Condvar,
}

/// The outcome of making a value.
pub(super) enum Outcome<V> {
    Running,
    Made(V),
    Failed(AnyError),
    /// The thread that made it has panicked.
    Abandoned,
}

impl<V> Making<V> {
    /// Begins to make a value in the current thread.
    pub(super) fn new() -> Making<V> {
        Making {
            maker: this_thread(),
            outcome: Lock::new(Outcome::Running),
            ended: Condvar::new(),
        }
    }

    /// Sets the outcome, unless there is one, and wakes the threads that wait.
    pub(super) fn end(&self, last: Outcome<V>) {
        let mut outcome = self.outcome.lock();
        if let Outcome::Running = *outcome {
            *outcome = last;
            self.ended.notify_all();
        }
    }

    /// Waits for the outcome. Returns the value or the error, or `None` if there is neither.
    ///
    /// # Panics
    ///
    /// If the current thread is the one that makes the value: it would wait for itself.
    pub(super) fn wait(&self) -> Option<Result<V, AnyError>>
    where
        V: Clone,
    {
        assert!(
            self.maker != this_thread(),
            "the closure that makes a key's value asks for that key"
        );
        let mut outcome = self.outcome.lock();
        loop {
            match &*outcome {
                Outcome::Running => outcome = self.outcome.wait(outcome, &self.ended),
                Outcome::Made(value) => return Some(Ok(value.clone())),
                Outcome::Failed(error) => return Some(Err(Arc::clone(error))),
                Outcome::Abandoned => return None,
            }
        }
    }
}

/// The values that threads make for a segment, with their keys.
pub(super) struct Makings<K, V> {
    all: Vec<(u64, K, Arc<Making<V>>)>,
}

impl<K, V> Makings<K, V> {
    pub(super) fn new() -> Makings<K, V> {
        Makings { all: Vec::new() }
    }

    /// Returns the value that a thread makes for a key.
    pub(super) fn find<Q>(&self, key: &Q, hash: u64) -> Option<Arc<Making<V>>>
    where
        K: Borrow<Q>,
        Q: Eq + ?Sized,
    {
        let mut all = self.all.iter();
        let found = all.find(|(other_hash, other, _)| *other_hash == hash && other.borrow() == key);
        found.map(|(_, _, making)| Arc::clone(making))
    }

    pub(super) fn add(&mut self, key: K, hash: u64, making: Arc<Making<V>>) {
        self.all.push((hash, key, making));
    }

    /// Removes a value from the list, and returns its key if it is still there.
    pub(super) fn remove(&mut self, making: &Arc<Making<V>>) -> Option<K> {
        let mut all = self.all.iter();
        let at = all.position(|(_, _, other)| Arc::ptr_eq(other, making))?;
        let (_, key, _) = self.all.swap_remove(at);
        Some(key)
    }
}
