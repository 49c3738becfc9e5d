//! Tests how much memory a cache reserves when it is built.

#![cfg(target_os = "linux")]

use mini_moka_proved::{sync, BuildError, ByteCache, NumberCache};
use std::fs;

const ENTRIES: usize = 2_000_000;
const MIB: usize = 1 << 20;

/// Returns the address space that this process uses, in bytes.
fn used() -> usize {
    let status = fs::read_to_string("/proc/self/status").unwrap();
    let line = status.lines().find(|line| line.starts_with("VmSize:"));
    let number = line.and_then(|line| line.split_whitespace().nth(1));
    number.unwrap().parse::<usize>().unwrap() * 1024
}

/// Returns the address space that a cache takes.
fn taken<T>(build: impl FnOnce() -> Result<T, BuildError>) -> usize {
    let before = used();
    let _cache = build().unwrap();
    used() - before
}

// One test, so that no other one takes memory meanwhile.
#[test]
fn segments_together_reserve_what_one_cache_does() {
    let one = taken(|| ByteCache::builder().initial_capacity(ENTRIES).build());
    let numbers = taken(|| NumberCache::builder().initial_capacity(ENTRIES).build());
    // An entry takes 40 to 200 bytes.
    for taken in [one, numbers] {
        assert!((40 * ENTRIES..200 * ENTRIES).contains(&taken), "{taken}");
    }
    for segments in [1, 4, 16] {
        let builder = sync::ByteCache::builder().segments(segments);
        let shared = taken(|| builder.initial_capacity(ENTRIES).build());
        let most = one + one / 2 + 64 * MIB;
        assert!((one / 2..most).contains(&shared), "{one} {shared}");
    }
}
