//! Tests that dropping a cache frees its memory.

#![cfg(target_os = "linux")]

use mini_moka_proved::{ByteCache, NumberCache};
use std::fs;

const MIB: usize = 1 << 20;

/// Returns the resident memory of this process, in bytes.
fn resident() -> usize {
    let status = fs::read_to_string("/proc/self/status").unwrap();
    let line = status.lines().find(|line| line.starts_with("VmRSS:"));
    let number = line.and_then(|line| line.split_whitespace().nth(1));
    number.unwrap().parse::<usize>().unwrap() * 1024
}

/// Fills and drops a cache with a value of 1 MiB and 1000 small entries, and a cache of numbers.
fn fill() {
    let mut bytes = ByteCache::builder().build().unwrap();
    bytes.insert(b"key", vec![1; MIB]).unwrap();
    for key in 0..1000u32 {
        bytes.insert(key.to_le_bytes(), [0; 1000]).unwrap();
    }
    let mut numbers = NumberCache::builder()
        .initial_capacity(10_000)
        .build()
        .unwrap();
    numbers.insert(7, 49).unwrap();
}

#[test]
fn a_dropped_cache_frees_what_it_has() {
    fill();
    let before = resident();
    for _ in 0..200 {
        fill();
    }
    let after = resident();
    assert!(after < before + 32 * MIB, "{before} bytes grew to {after}");
}
