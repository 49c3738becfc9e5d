//! Helpers of the tests.

// Each test program uses some of them.
#![allow(dead_code)]

use mini_moka_proved::Cause;
use std::hash::{BuildHasher, Hasher};
use std::sync::mpsc::channel;
use std::sync::{Arc, Mutex, PoisonError};
use std::thread;
use std::time::Duration;

pub const SECOND: Duration = Duration::from_secs(1);
pub const NANOSECOND: Duration = Duration::from_nanos(1);
pub const START: Duration = Duration::ZERO;

/// Pseudorandom numbers, by splitmix64.
pub struct Random(pub u64);

impl Random {
    pub fn next(&mut self) -> u64 {
        self.0 = self.0.wrapping_add(0x9e37_79b9_7f4a_7c15);
        let mixed = (self.0 ^ (self.0 >> 30)).wrapping_mul(0xbf58_476d_1ce4_e5b9);
        let mixed = (mixed ^ (mixed >> 27)).wrapping_mul(0x94d0_49bb_1331_11eb);
        mixed ^ (mixed >> 31)
    }

    pub fn below(&mut self, limit: u64) -> u64 {
        self.next() % limit
    }
}

/// Returns `length` varying bytes.
pub fn bytes(length: usize) -> Vec<u8> {
    (0..length).map(|at| (at * 7 + at / 251) as u8).collect()
}

/// Makes a call in another thread, and fails if it doesn't return.
pub fn returns<T: Send + 'static>(call: impl FnOnce() -> T + Send + 'static) -> T {
    let (told, heard) = channel();
    thread::spawn(move || told.send(call()));
    let answer = heard.recv_timeout(20 * SECOND);
    answer.expect("the call waits for its own lock")
}

/// Hashes a number to its remainder, so that hashes collide, or to itself if the divisor is 0.
#[derive(Clone, Copy)]
pub struct Remainder(pub u64);

pub struct RemainderHasher {
    divisor: u64,
    hash: u64,
}

impl BuildHasher for Remainder {
    type Hasher = RemainderHasher;

    fn build_hasher(&self) -> RemainderHasher {
        RemainderHasher {
            divisor: self.0,
            hash: 0,
        }
    }
}

impl Hasher for RemainderHasher {
    fn write(&mut self, _bytes: &[u8]) {
        unreachable!("keys hash a number");
    }

    fn write_u64(&mut self, number: u64) {
        self.hash = number.checked_rem(self.divisor).unwrap_or(number);
    }

    fn finish(&self) -> u64 {
        self.hash
    }
}

/// What a listener was told, in this order.
pub struct Told<K, V>(Arc<Mutex<Vec<(K, V, Cause)>>>);

impl<K: Send + 'static, V: Send + 'static> Told<K, V> {
    pub fn new() -> Told<K, V> {
        Told(Arc::default())
    }

    /// Returns a listener that notes what it is told.
    pub fn listener(&self) -> impl Fn(K, V, Cause) + Send + Sync + 'static {
        let told = Arc::clone(&self.0);
        move |key, value, cause| {
            let mut told = told.lock().unwrap_or_else(PoisonError::into_inner);
            told.push((key, value, cause));
        }
    }

    /// Returns what was told since the last call of this.
    pub fn take(&self) -> Vec<(K, V, Cause)> {
        std::mem::take(&mut self.0.lock().unwrap_or_else(PoisonError::into_inner))
    }
}
