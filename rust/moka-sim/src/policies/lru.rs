//! A cache that evicts its least recently used entries, and admits every new one that fits.
//!
//! An expired entry leaves when its key is requested or when it is evicted.

use super::{Counts, PlayError, Policy, Rules, Tally};
use crate::memory::filled;
use crate::trace::Trace;
use std::ops::Range;

/// The node that no key has.
const NONE: u32 = u32::MAX;

/// A doubly linked list of keys, the least recently used one first.
pub struct Lru {
    rules: Rules,
    nodes: Vec<Node>,
    first: u32,
    last: u32,
    weight: u64,
    evictions: u64,
    rejections: u64,
    expirations: u64,
}

#[derive(Clone)]
struct Node {
    before: u32,
    after: u32,
    is_linked: bool,
    weight: u64,
    inserted: u64,
}

impl Lru {
    pub fn open(rules: Rules, trace: &Trace) -> Result<Lru, PlayError> {
        let node = Node {
            before: NONE,
            after: NONE,
            is_linked: false,
            weight: 0,
            inserted: 0,
        };
        Ok(Lru {
            rules,
            nodes: filled(trace.keys.len(), node)?,
            first: NONE,
            last: NONE,
            weight: 0,
            evictions: 0,
            rejections: 0,
            expirations: 0,
        })
    }

    /// Returns `true` if the key has an unexpired entry, which becomes the most recently used one.
    fn get(&mut self, key: u32, now: u64) -> bool {
        let node = &self.nodes[key as usize];
        if !node.is_linked {
            return false;
        }
        let is_expired = self.rules.is_expired(node.inserted, now);
        self.unlink(key);
        if is_expired {
            self.weight -= self.nodes[key as usize].weight;
            self.expirations += 1;
        } else {
            self.link(key);
        }
        !is_expired
    }

    /// Inserts an entry for a key that has none, and evicts others until it fits.
    fn insert(&mut self, key: u32, weight: u64, now: u64) {
        if weight > self.rules.capacity {
            self.rejections += 1;
            return;
        }
        self.nodes[key as usize].weight = weight;
        self.nodes[key as usize].inserted = now;
        self.weight += weight;
        while self.weight > self.rules.capacity {
            let victim = self.first;
            self.unlink(victim);
            self.weight -= self.nodes[victim as usize].weight;
            self.evictions += 1;
        }
        self.link(key);
    }

    fn link(&mut self, key: u32) {
        let last = self.last;
        let node = &mut self.nodes[key as usize];
        (node.before, node.after, node.is_linked) = (last, NONE, true);
        match last {
            NONE => self.first = key,
            last => self.nodes[last as usize].after = key,
        }
        self.last = key;
    }

    fn unlink(&mut self, key: u32) {
        let node = &mut self.nodes[key as usize];
        node.is_linked = false;
        let (before, after) = (node.before, node.after);
        match before {
            NONE => self.first = after,
            before => self.nodes[before as usize].after = after,
        }
        match after {
            NONE => self.last = before,
            after => self.nodes[after as usize].before = before,
        }
    }
}

impl Policy for Lru {
    fn play(&mut self, trace: &Trace, part: Range<usize>) -> Result<Tally, PlayError> {
        let mut tally = Tally::default();
        for request in part {
            let (key, now) = (trace.requests[request], trace.time(request));
            if self.get(key, now) {
                tally.hits += 1;
                tally.hit_bytes += trace.size(request);
            } else {
                self.insert(key, self.rules.weight(trace, request), now);
            }
        }
        Ok(tally)
    }

    fn window(&self) -> Option<u64> {
        None
    }

    fn counts(&self, _hits: u64) -> Result<Counts, PlayError> {
        Ok(Counts {
            evictions: Some(self.evictions),
            rejections: Some(self.rejections),
            expirations: Some(self.expirations),
        })
    }
}
