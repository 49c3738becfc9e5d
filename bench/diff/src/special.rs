//! Scripts that trigger faults of the original that chance doesn't. Their limits are too low for a window. Most entries weigh 0, so that there are
//! many of them nevertheless.
use crate::make::initial;
use crate::random::Random;
use crate::script::{Call, Line, Script, WINDOWED};
use crate::sketch::{asked, asked_in_whole_numbers, index_of, DEPTHS};

/// Number of words in the table for a capacity from 129 to 256.
const TABLE_WORDS: u64 = 256;
/// Number of random hashes from which each get takes the best.
const TRIES: u64 = 150;

/// Makes a script whose gets turn most counters odd before the sketch ages, so that the original's size underflows.
pub fn odd_counters(random: &mut Random) -> Script {
    let max = random.between(2, WINDOWED - 1);
    let count = random.between(129, 140);
    let mut lines: Vec<Line> = (1..count).map(weightless).collect();
    // The last entry fills the limit. That turns the sketch on, with the number of entries as its capacity.
    lines.push(insert(count, max as u32));
    let mut parities = Parities::new();
    // The sketch ages at a size of ten times its capacity.
    for _ in 0..10 * count {
        let hash = parities.best(random);
        parities.count(hash);
        lines.push(line(Call::Get(hash)));
    }
    lines.extend((count + 1..count + 100).map(|key| insert(key, 1)));
    lines.extend([Call::Count, Call::Iter].map(line));
    Script {
        max: Some(max),
        weighed: true,
        initial: initial(random),
        by_key: false,
        lines,
    }
}

/// Makes a script of a weighed cache whose sketch gets another capacity in floating point than in whole numbers.
pub fn rounded_capacity(random: &mut Random) -> Script {
    let (max, count, last) = rounded(random);
    let mut lines: Vec<Line> = (1..count).map(weightless).collect();
    lines.push(line(Call::Weight));
    lines.push(insert(count, last as u32));
    lines.extend([Call::Count, Call::Weight, Call::Iter].map(line));
    lines.extend((0..50).map(|key| line(Call::Get(key))));
    Script {
        max: Some(max),
        weighed: true,
        initial: initial(random),
        by_key: false,
        lines,
    }
}

/// Draws a limit, a number of entries, and the weight of the last one. It reaches half of the limit alone, since the others weigh 0.
fn rounded(random: &mut Random) -> (u64, u64, u64) {
    loop {
        let max = random.between(3, WINDOWED - 1);
        let count = random.between(260, 1000);
        let weight = random.between(max / 2, max);
        if asked(true, max, count, weight) != asked_in_whole_numbers(true, max, count, weight) {
            return (max, count, weight);
        }
    }
}

fn weightless(key: u64) -> Line {
    insert(key, 0)
}

fn insert(key: u64, weight: u32) -> Line {
    let text = "a".to_string();
    line(Call::Insert { key, text, weight })
}

fn line(call: Call) -> Line {
    Line { moment: 0, call }
}

/// Parity of each counter.
struct Parities {
    is_odd: Vec<bool>,
}

impl Parities {
    fn new() -> Parities {
        Parities {
            is_odd: vec![false; 16 * TABLE_WORDS as usize],
        }
    }

    /// Draws `TRIES` hashes, and returns the one that turns the most even counters odd.
    fn best(&self, random: &mut Random) -> u64 {
        let hashes = (0..TRIES).map(|_| random.number());
        hashes.max_by_key(|hash| self.evens(*hash)).unwrap_or(0)
    }

    fn evens(&self, hash: u64) -> usize {
        (0..DEPTHS).filter(|depth| !self.is_odd[counter(hash, *depth)]).count()
    }

    fn count(&mut self, hash: u64) {
        for depth in 0..DEPTHS {
            let counter = counter(hash, depth);
            self.is_odd[counter] = !self.is_odd[counter];
        }
    }
}

/// Returns the number of the hash's counter at `depth`. A word has sixteen counters, four for the hashes of each remainder modulo 4.
fn counter(hash: u64, depth: usize) -> usize {
    let word = index_of(hash, depth, TABLE_WORDS) as usize;
    16 * word + 4 * (hash & 3) as usize + depth
}
