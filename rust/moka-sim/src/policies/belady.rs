//! The best possible cache for entries of one size that don't expire: it knows the future, keeps the
//! entries that are requested soonest, and stores none that isn't worth it.
//!
//! With sizes or a time to live the same rule is a good cache, and no bound.

use super::{Counts, PlayError, Policy, Rules, Tally};
use crate::memory::{filled, push};
use crate::trace::Trace;
use std::ops::Range;

/// The request of a key that isn't requested again.
const NEVER: u32 = u32::MAX;

pub struct Belady {
    rules: Rules,
    /// For each request the next one of its key, or `NEVER`.
    next: Vec<u32>,
    entries: Vec<Entry>,
    /// The next requests of entries, the last of them on top. Requests that have passed stay
    /// at its bottom.
    heap: Vec<(u32, u32)>,
    stored: usize,
    weight: u64,
}

#[derive(Clone)]
struct Entry {
    is_stored: bool,
    weight: u64,
    inserted: u64,
}

impl Belady {
    pub fn open(rules: Rules, trace: &Trace) -> Result<Belady, PlayError> {
        let mut next = filled(trace.len(), NEVER)?;
        let mut seen = filled(trace.keys.len(), NEVER)?;
        for request in (0..trace.len()).rev() {
            let key = trace.requests[request] as usize;
            next[request] = seen[key];
            seen[key] = request as u32;
        }
        let entry = Entry {
            is_stored: false,
            weight: 0,
            inserted: 0,
        };
        Ok(Belady {
            rules,
            next,
            entries: filled(trace.keys.len(), entry)?,
            heap: Vec::new(),
            stored: 0,
            weight: 0,
        })
    }

    /// Returns `true` if the key has an entry. Stores or keeps one if it is of use again.
    fn request(&mut self, trace: &Trace, request: usize) -> Result<bool, PlayError> {
        let key = trace.requests[request];
        let now = trace.time(request);
        let entry = &self.entries[key as usize];
        // An entry is stored only if it isn't expired at this request.
        let is_hit = entry.is_stored;
        let (inserted, weight) = match is_hit {
            true => (entry.inserted, entry.weight),
            false => (now, self.rules.weight(trace, request)),
        };
        self.remove(key);
        let next = self.next[request];
        if next != NEVER && !self.rules.is_expired(inserted, trace.time(next as usize)) {
            self.entries[key as usize] = Entry {
                is_stored: true,
                weight,
                inserted,
            };
            self.stored += 1;
            self.weight += weight;
            self.add((next, key), request)?;
            self.evict();
        }
        Ok(is_hit)
    }

    fn remove(&mut self, key: u32) {
        let entry = &mut self.entries[key as usize];
        if entry.is_stored {
            entry.is_stored = false;
            self.stored -= 1;
            self.weight -= entry.weight;
        }
    }

    /// Removes the entries that are requested last, until the others fit. Each entry's next request is
    /// after those that have passed, so the top of the heap is an entry's.
    fn evict(&mut self) {
        while self.weight > self.rules.capacity {
            let (_, key) = self.heap[0];
            self.heap.swap_remove(0);
            sift_down(&mut self.heap, 0);
            self.remove(key);
        }
    }

    /// Adds a next request to the heap. Requests that have passed are dropped once they are most of it.
    fn add(&mut self, item: (u32, u32), now: usize) -> Result<(), PlayError> {
        if self.heap.len() > 2 * self.stored + 1024 {
            self.heap.retain(|(next, _)| *next as usize > now);
            for at in (0..self.heap.len() / 2).rev() {
                sift_down(&mut self.heap, at);
            }
        }
        push(&mut self.heap, item)?;
        let mut at = self.heap.len() - 1;
        while at > 0 && self.heap[(at - 1) / 2] < self.heap[at] {
            self.heap.swap((at - 1) / 2, at);
            at = (at - 1) / 2;
        }
        Ok(())
    }
}

/// Moves an item down until none below it is greater.
fn sift_down(heap: &mut [(u32, u32)], mut at: usize) {
    loop {
        let mut greatest = at;
        for child in [2 * at + 1, 2 * at + 2] {
            if child < heap.len() && heap[child] > heap[greatest] {
                greatest = child;
            }
        }
        if greatest == at {
            return;
        }
        heap.swap(at, greatest);
        at = greatest;
    }
}

impl Policy for Belady {
    fn play(&mut self, trace: &Trace, part: Range<usize>) -> Result<Tally, PlayError> {
        let mut tally = Tally::default();
        for request in part {
            if self.request(trace, request)? {
                tally.hits += 1;
                tally.hit_bytes += trace.size(request);
            }
        }
        Ok(tally)
    }

    fn window(&self) -> Option<u64> {
        None
    }

    /// Counts nothing: which of the useless entries leave is arbitrary.
    fn counts(&self, _hits: u64) -> Result<Counts, PlayError> {
        Ok(Counts::default())
    }
}
