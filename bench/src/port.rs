//! Calls of the port's static library.
use crate::hand_lists::ListLoad;
use crate::traces::{Operation, Settings};

/// Outcome of a trace.
#[repr(C)]
#[derive(Clone, Copy, Debug, Default, PartialEq, Eq)]
pub struct Outcome {
    pub hits: u64,
    pub checksum: u64,
    pub entries: u64,
    pub weight: u64,
}

extern "C" {
    fn bench_trace_play(
        settings: *const Settings,
        operations: *const Operation,
        count: usize,
        outcome: *mut Outcome,
    ) -> u32;
    fn bench_trace_play_core(
        settings: *const Settings,
        operations: *const Operation,
        count: usize,
        outcome: *mut Outcome,
    ) -> u32;
    fn bench_trace_sketch(
        capacity: u32,
        hashes: *const u64,
        hash_count: usize,
        counts: usize,
        reads: usize,
        sum: *mut u64,
    ) -> u32;
    fn bench_trace_aging(
        load: u32,
        words: *const u64,
        word_count: usize,
        agings: usize,
        sum: *mut u64,
    ) -> u32;
    fn bench_trace_list(
        load: u32,
        nodes: usize,
        picks: *const usize,
        pick_count: usize,
        rounds: usize,
        sum: *mut u64,
    ) -> u32;
    fn bench_trace_index(
        load: u32,
        hashes: *const u64,
        hash_count: usize,
        sought: *const u64,
        sought_count: usize,
        rounds: usize,
        sum: *mut u64,
    ) -> u32;
    fn bench_trace_index_by_map(
        load: u32,
        hashes: *const u64,
        hash_count: usize,
        sought: *const u64,
        sought_count: usize,
        rounds: usize,
        sum: *mut u64,
    ) -> u32;
}

/// Plays the operations on a new cache, which is dropped at the end.
pub fn play(settings: &Settings, operations: &[Operation]) -> Outcome {
    let mut outcome = Outcome::default();
    // All pointers are valid during the call, and a slice's pointer is never null.
    let status = unsafe {
        bench_trace_play(
            settings,
            operations.as_ptr(),
            operations.len(),
            &mut outcome,
        )
    };
    assert_eq!(status, 0, "the port refused a trace");
    outcome
}

/// Plays the operations on a new core of the shared cache, which is dropped at the end.
pub fn play_core(settings: &Settings, operations: &[Operation]) -> Outcome {
    let mut outcome = Outcome::default();
    // As in `play`.
    let status = unsafe {
        bench_trace_play_core(
            settings,
            operations.as_ptr(),
            operations.len(),
            &mut outcome,
        )
    };
    assert_eq!(status, 0, "the core refused a trace");
    outcome
}

/// Counts all hashes `counts` times in a new sketch, and then reads them `reads` times. Returns the sum of the frequencies that were read.
pub fn sketch(capacity: u32, hashes: &[u64], counts: usize, reads: usize) -> u64 {
    // Here and below, all pointers are valid during the call, and a slice's pointer is never null.
    answer(|sum| unsafe {
        bench_trace_sketch(capacity, hashes.as_ptr(), hashes.len(), counts, reads, sum)
    })
}

/// Loop that ages a table, with its number in the static library.
#[derive(Clone, Copy)]
pub enum AgingLoad {
    InLanes = 0,
    WordByWord = 1,
}

/// Ages a new table of these words `agings` times, from a size of `u32::MAX`. Returns a sum of the sizes that depends on their order.
pub fn age(load: AgingLoad, words: &[u64], agings: usize) -> u64 {
    answer(|sum| unsafe {
        bench_trace_aging(load as u32, words.as_ptr(), words.len(), agings, sum)
    })
}

/// Plays a load on a new list with capacity for `nodes` nodes.
pub fn list(load: ListLoad, nodes: usize, picks: &[usize], rounds: usize) -> u64 {
    answer(|sum| unsafe {
        bench_trace_list(load as u32, nodes, picks.as_ptr(), picks.len(), rounds, sum)
    })
}

/// Load of an index, with its number in the static library.
#[derive(Clone, Copy, PartialEq, Eq)]
pub enum IndexLoad {
    Find = 0,
    FindAndReplace = 1,
}

/// Plays a load on a new index in which the id of each hash is its position in `hashes`.
pub fn index(load: IndexLoad, hashes: &[u64], sought: &[u64], rounds: usize) -> u64 {
    answer(|sum| unsafe {
        bench_trace_index(
            load as u32,
            hashes.as_ptr(),
            hashes.len(),
            sought.as_ptr(),
            sought.len(),
            rounds,
            sum,
        )
    })
}

/// Plays a load on std's map from hashes to ids.
pub fn index_by_map(load: IndexLoad, hashes: &[u64], sought: &[u64], rounds: usize) -> u64 {
    answer(|sum| unsafe {
        bench_trace_index_by_map(
            load as u32,
            hashes.as_ptr(),
            hashes.len(),
            sought.as_ptr(),
            sought.len(),
            rounds,
            sum,
        )
    })
}

/// Returns the sum that a call writes.
fn answer(call: impl FnOnce(*mut u64) -> u32) -> u64 {
    let mut sum = 0;
    assert_eq!(call(&mut sum), 0, "the port refused a batch");
    sum
}
