//! Locks that a panic doesn't close, and that ThreadSanitizer sees.

use std::sync::{Condvar, Mutex, MutexGuard, PoisonError};

/// A lock around a value that stays intact if a thread panics while it holds the lock.
pub(super) struct Lock<T> {
    value: Mutex<T>,
}

#[cfg(not(mini_moka_watched))]
impl<T> Lock<T> {
    pub(super) fn lock(&self) -> MutexGuard<'_, T> {
        self.value.lock().unwrap_or_else(PoisonError::into_inner)
    }

    /// Releases the lock until the condition may have changed.
    pub(super) fn wait<'a>(
        &'a self,
        value: MutexGuard<'a, T>,
        changed: &Condvar,
    ) -> MutexGuard<'a, T> {
        changed.wait(value).unwrap_or_else(PoisonError::into_inner)
    }
}

// No thread waits inside std, which ThreadSanitizer wouldn't see, since std isn't compiled for it.
#[cfg(mini_moka_watched)]
impl<T> Lock<T> {
    pub(super) fn lock(&self) -> MutexGuard<'_, T> {
        use std::sync::TryLockError;
        loop {
            match self.value.try_lock() {
                Ok(value) => return value,
                Err(TryLockError::Poisoned(value)) => return PoisonError::into_inner(value),
                Err(TryLockError::WouldBlock) => std::thread::yield_now(),
            }
        }
    }

    /// Releases the lock for a moment.
    pub(super) fn wait<'a>(
        &'a self,
        value: MutexGuard<'a, T>,
        _changed: &Condvar,
    ) -> MutexGuard<'a, T> {
        drop(value);
        std::thread::yield_now();
        self.lock()
    }
}

impl<T> Lock<T> {
    pub(super) fn new(value: T) -> Lock<T> {
        Lock {
            value: Mutex::new(value),
        }
    }
}
