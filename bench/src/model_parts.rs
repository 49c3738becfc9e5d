//! Parts of the models of caches: a sketch, queues of entries, and the numbers of keys.
use std::collections::HashMap;

/// The parts of the cache, each a queue with the least recently used entry in front.
#[derive(Clone, Copy, PartialEq, Eq)]
pub(crate) enum Part {
    Window,
    Probation,
    Protected,
}

const PARTS: usize = 3;
const SEEDS: [u64; 4] = [
    0xc3a5_c85c_97cb_3127,
    0xb492_b66f_be98_f273,
    0x9ae1_6a3b_2f90_404f,
    0xcbf2_9ce4_8422_2325,
];

/// Counts of four bits, four in four words for each hash.
#[derive(Default)]
pub(crate) struct Sketch {
    table: Vec<u64>,
    size: u64,
    sample: u64,
}

impl Sketch {
    pub(crate) fn is_on(&self) -> bool {
        !self.table.is_empty()
    }

    pub(crate) fn enable(&mut self, capacity: u64) {
        self.table = vec![0; capacity.next_power_of_two().max(8) as usize];
        self.sample = (10 * capacity).max(10);
    }

    /// Returns the word and the shift of one of the four counts of a hash.
    fn place(&self, hash: u64, depth: usize) -> (usize, u64) {
        let mixed = SEEDS[depth].wrapping_mul(hash.wrapping_add(SEEDS[depth]));
        let word = mixed.wrapping_add(mixed >> 32) & (self.table.len() as u64 - 1);
        (word as usize, (((hash & 3) << 2) + depth as u64) * 4)
    }

    pub(crate) fn frequency(&self, hash: u64) -> u64 {
        if !self.is_on() {
            return 0;
        }
        let count = |depth| {
            let (word, shift) = self.place(hash, depth);
            self.table[word] >> shift & 15
        };
        (0..SEEDS.len()).map(count).min().unwrap_or(0)
    }

    pub(crate) fn increment(&mut self, hash: u64) {
        if !self.is_on() {
            return;
        }
        let mut is_counted = false;
        for depth in 0..SEEDS.len() {
            let (word, shift) = self.place(hash, depth);
            if self.table[word] >> shift & 15 < 15 {
                self.table[word] += 1 << shift;
                is_counted = true;
            }
        }
        self.size += u64::from(is_counted);
        if is_counted && self.size >= self.sample {
            self.age();
        }
    }

    fn age(&mut self) {
        let mut odd = 0;
        for word in &mut self.table {
            odd += u64::from((*word & 0x1111_1111_1111_1111).count_ones());
            *word = *word >> 1 & 0x7777_7777_7777_7777;
        }
        self.size = self.size / 2 - odd / 4;
    }
}

/// A queue for each part, over entries that are numbers below a bound.
pub(crate) struct Queues {
    next: Vec<usize>,
    previous: Vec<usize>,
    pub(crate) part: Vec<Option<Part>>,
    lengths: [usize; PARTS],
    bound: usize,
}

impl Queues {
    pub(crate) fn new(bound: usize) -> Queues {
        Queues {
            next: (0..bound + PARTS).collect(),
            previous: (0..bound + PARTS).collect(),
            part: vec![None; bound],
            lengths: [0; PARTS],
            bound,
        }
    }

    pub(crate) fn len(&self, part: Part) -> usize {
        self.lengths[part as usize]
    }

    pub(crate) fn front(&self, part: Part) -> Option<usize> {
        let head = self.bound + part as usize;
        (self.next[head] != head).then(|| self.next[head])
    }

    pub(crate) fn remove(&mut self, entry: usize) {
        let Some(part) = self.part[entry].take() else {
            return;
        };
        self.lengths[part as usize] -= 1;
        let (before, behind) = (self.previous[entry], self.next[entry]);
        self.next[before] = behind;
        self.previous[behind] = before;
    }

    /// Moves an entry to the end of a queue, from another one or from none.
    pub(crate) fn push(&mut self, entry: usize, part: Part) {
        self.remove(entry);
        let head = self.bound + part as usize;
        let last = self.previous[head];
        self.next[last] = entry;
        self.previous[entry] = last;
        self.next[entry] = head;
        self.previous[head] = entry;
        self.part[entry] = Some(part);
        self.lengths[part as usize] += 1;
    }
}

/// Returns the entry of each call, numbered in the order of their first calls, and the hash of each entry.
pub(crate) fn entries(keys: &[u64], hash: impl Fn(u64) -> u64) -> (Vec<usize>, Vec<u64>) {
    let mut numbers = HashMap::new();
    let mut hashes = Vec::new();
    let calls = keys.iter().map(|key| {
        *numbers.entry(*key).or_insert_with(|| {
            hashes.push(hash(*key));
            hashes.len() - 1
        })
    });
    (calls.collect(), hashes)
}
