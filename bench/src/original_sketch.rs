//! The original's sketch, which isn't public. The build script finds its file in the dependency, and it is compiled unchanged.
#![allow(dead_code, unexpected_cfgs)]

include!(env!("ORIGINAL_SKETCH"));

/// Plays a batch as the port's `bench_trace_sketch` does.
pub fn play(capacity: u32, hashes: &[u64], counts: usize, reads: usize) -> u64 {
    let mut sketch = FrequencySketch::default();
    sketch.ensure_capacity(capacity);
    for _ in 0..counts {
        for hash in hashes {
            sketch.increment(*hash);
        }
    }
    let mut sum = 0u64;
    for _ in 0..reads {
        for hash in hashes {
            sum = sum.wrapping_add(u64::from(sketch.frequency(*hash)));
        }
    }
    sum
}

/// Plays a batch as the port's `bench_trace_aging` does.
pub fn age(words: &[u64], agings: usize) -> u64 {
    let mut sketch = FrequencySketch {
        table: words.into(),
        size: u32::MAX,
        ..FrequencySketch::default()
    };
    let mut sum = 0u64;
    for _ in 0..agings {
        sketch.reset();
        sum = sum.wrapping_mul(31).wrapping_add(u64::from(sketch.size));
    }
    sum
}
