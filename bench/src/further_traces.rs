//! Further traces for counting hits: recency of several lengths, stack distances, a database and a web server in outline, and mixtures of phases.
use crate::hit_traces::{recent, zipf, HitTrace, CALLS, KEYS};
use crate::traces::Random;

/// Calls of a phase.
const PHASE: usize = 200_000;
/// The first keys of parts of a trace that share no keys with others.
const BASE: u64 = 1 << 26;
const OTHER_BASE: u64 = 1 << 27;

/// Sums over numbers of 0 and 1, with the place of the n-th 1.
struct Marks {
    sums: Vec<i32>,
}

impl Marks {
    fn new(places: usize) -> Marks {
        Marks {
            sums: vec![0; places + 1],
        }
    }

    fn add(&mut self, place: usize, number: i32) {
        let mut at = place + 1;
        while at < self.sums.len() {
            self.sums[at] += number;
            at += at & at.wrapping_neg();
        }
    }

    /// Returns the place of a mark, counted from 1.
    fn place_of(&self, mark: i32) -> usize {
        let (mut place, mut left) = (0, mark);
        for shift in (0..=22).rev() {
            let next = place + (1 << shift);
            if next < self.sums.len() && self.sums[next] < left {
                place = next;
                left -= self.sums[next];
            }
        }
        place
    }
}

/// Returns keys by their stack distance, log-uniform from 1 to 100,000; one call in fifty is of a new key.
fn stack(seed: u64) -> Vec<u64> {
    let mut random = Random(seed);
    let mut marks = Marks::new(CALLS + 1);
    let mut at = vec![0; CALLS + 1];
    let (mut live, mut fresh) = (0, 0);
    let mut keys = Vec::with_capacity(CALLS);
    for call in 0..CALLS {
        let depth = (random.unit() * 100_000f64.ln()).exp() as i32;
        let key = if depth > live || random.below(50) == 0 {
            fresh += 1;
            fresh - 1
        } else {
            let place = marks.place_of(live - depth + 1);
            marks.add(place, -1);
            live -= 1;
            at[place]
        };
        at[call] = key;
        marks.add(call, 1);
        live += 1;
        keys.push(key);
    }
    keys
}

/// Returns popular keys, and now and then a scan of up to 2,000 others in their order.
fn database() -> Vec<u64> {
    let mut rank = zipf(0.9, 5);
    let mut random = Random(6);
    let mut keys = Vec::with_capacity(CALLS);
    while keys.len() < CALLS {
        if random.below(400) != 0 {
            keys.push(rank());
            continue;
        }
        let first = random.below(KEYS);
        let count = 1 + random.below(2000);
        let scan = (0..count).map(|number| KEYS + (first + number) % KEYS);
        let room = CALLS - keys.len();
        keys.extend(scan.take(room));
    }
    keys
}

/// Returns popular keys, of which three in ten are replaced by keys that come once.
fn web() -> Vec<u64> {
    let mut rank = zipf(0.85, 7);
    let mut random = Random(8);
    let mut once = 1 << 24;
    (0..CALLS)
        .map(|_| {
            if random.below(100) < 30 {
                once += 1;
                once - 1
            } else {
                rank()
            }
        })
        .collect()
}

/// Returns phases: keys asked soon again, popular ones, a loop, keys asked soon again, and other popular ones.
fn phases() -> Vec<u64> {
    let mut rank = zipf(0.9, 12);
    let mut keys = recent(PHASE, 500, 11, BASE);
    keys.extend((0..PHASE).map(|_| rank()));
    keys.extend((0..PHASE as u64).map(|call| KEYS + call % 20_000));
    keys.extend(recent(PHASE, 500, 13, OTHER_BASE));
    keys.extend((0..PHASE).map(|_| (rank() + 50_000) % KEYS));
    keys
}

/// Returns keys asked soon again, a loop five times, and once more keys asked soon again.
fn stress() -> Vec<u64> {
    let mut keys = recent(700_000, 2000, 21, BASE);
    for _ in 0..5 {
        keys.extend((0..60_000).map(|number| KEYS + number));
    }
    keys.extend(recent(700_000, 2000, 22, OTHER_BASE));
    keys
}

/// Returns keys asked soon again and popular ones by turns.
fn soon_and_popular() -> Vec<u64> {
    let mut rank = zipf(0.9, 32);
    let soon = recent(CALLS / 2, 300, 31, BASE);
    soon.into_iter().flat_map(|key| [key, rank()]).collect()
}

/// Returns popular keys, of which one is replaced by a new key each twenty calls.
fn churn() -> Vec<u64> {
    let mut rank = zipf(0.99, 41);
    let mut key: Vec<u64> = (0..KEYS).collect();
    let mut fresh = 1 << 25;
    (0..CALLS)
        .map(|call| {
            if call % 20 == 0 {
                key[rank() as usize] = fresh;
                fresh += 1;
            }
            key[rank() as usize]
        })
        .collect()
}

/// Returns the traces, in the order of the table.
pub fn further_traces() -> Vec<HitTrace> {
    let trace = |name, keys| HitTrace { name, keys };
    let looped = (0..CALLS as u64).map(|call| call % 12_000).collect();
    vec![
        trace("Zipf 0.7", {
            let mut rank = zipf(0.7, 1);
            (0..CALLS).map(|_| rank()).collect()
        }),
        trace("loop of 12,000", looped),
        trace("soon 400", recent(CALLS, 400, 3, 0)),
        trace("soon 5000", recent(CALLS, 5000, 3, 0)),
        trace("database", database()),
        trace("web", web()),
        trace("stack", stack(51)),
        trace("phases", phases()),
        trace("stress", stress()),
        trace("soon and popular", soon_and_popular()),
        trace("churn", churn()),
    ]
}
