//! A model of Caffeine's policy since version 2.7, whose window adapts by hill climbing. It is a model, and not Caffeine: the jar that Debian has doesn't adapt.
//! It has the window, probation and protected entries, the sketch without a doorkeeper, samples of ten times the capacity, a first step of 6.25% that decays
//! by 2%, and moves at most 1,000 entries in a call.
use crate::model_parts::{entries, Part, Queues, Sketch};

/// The most entries that move or are demoted in a call.
const MOST_MOVES: usize = 1000;

struct Model<'a> {
    hashes: &'a [u64],
    capacity: usize,
    queues: Queues,
    sketch: Sketch,
    entries: usize,
    window_limit: usize,
    protected_limit: usize,
    step: f64,
    previous_ratio: f64,
    hits: u64,
    misses: u64,
    /// Entries that the window still has to gain, or to lose if it is negative.
    adjustment: i64,
    random: u64,
}

impl<'a> Model<'a> {
    fn new(capacity: usize, hashes: &'a [u64]) -> Model<'a> {
        let window_limit = capacity - (0.99 * capacity as f64) as usize;
        Model {
            hashes,
            capacity,
            queues: Queues::new(hashes.len()),
            sketch: Sketch::default(),
            entries: 0,
            window_limit,
            protected_limit: (0.8 * (capacity - window_limit) as f64) as usize,
            step: -0.0625 * capacity as f64,
            previous_ratio: 0.0,
            hits: 0,
            misses: 0,
            adjustment: 0,
            random: 88_172_645_463_325_252,
        }
    }

    /// Asks for an entry, and inserts it if it isn't found. Returns `true` if it is.
    fn ask(&mut self, entry: usize) -> bool {
        let found = self.queues.part[entry];
        match found {
            Some(part) => {
                self.sketch.increment(self.hashes[entry]);
                self.hits += 1;
                let to = match part {
                    Part::Probation if self.protected_limit > 0 => Part::Protected,
                    part => part,
                };
                self.queues.push(entry, to);
            }
            None => {
                self.entries += 1;
                if self.entries >= self.capacity / 2 && !self.sketch.is_on() {
                    self.sketch.enable(self.capacity as u64);
                }
                self.sketch.increment(self.hashes[entry]);
                self.misses += 1;
                self.queues.push(entry, Part::Window);
                self.evict();
            }
        }
        self.climb();
        found.is_some()
    }

    fn evict(&mut self) {
        let mut candidate = None;
        while self.queues.len(Part::Window) > self.window_limit {
            let Some(entry) = self.queues.front(Part::Window) else {
                break;
            };
            self.queues.push(entry, Part::Probation);
            candidate = candidate.or(Some(entry));
        }
        while self.entries > self.capacity {
            let first = |part| self.queues.front(part);
            let victim = first(Part::Probation).or_else(|| first(Part::Protected));
            let other = candidate.take().or_else(|| first(Part::Window));
            let Some(leaving) = self.loser(victim, other) else {
                return;
            };
            self.queues.remove(leaving);
            self.entries -= 1;
        }
    }

    /// Returns which of a victim and a candidate leaves.
    fn loser(&mut self, victim: Option<usize>, candidate: Option<usize>) -> Option<usize> {
        match (victim, candidate) {
            (Some(victim), Some(candidate)) if victim != candidate => {
                Some(if self.admits(candidate, victim) {
                    victim
                } else {
                    candidate
                })
            }
            (victim, candidate) => victim.or(candidate),
        }
    }

    /// Returns `true` if a candidate is used more often, or by a chance of one in 128 if it is used six times or more.
    fn admits(&mut self, candidate: usize, victim: usize) -> bool {
        let frequency = self.sketch.frequency(self.hashes[candidate]);
        if frequency > self.sketch.frequency(self.hashes[victim]) {
            return true;
        }
        if frequency < 6 {
            return false;
        }
        self.random ^= self.random << 13;
        self.random ^= self.random >> 7;
        self.random ^= self.random << 17;
        self.random & 127 == 0
    }

    fn demote(&mut self) {
        for _ in 0..MOST_MOVES {
            if self.queues.len(Part::Protected) <= self.protected_limit {
                return;
            }
            if let Some(entry) = self.queues.front(Part::Protected) {
                self.queues.push(entry, Part::Probation);
            }
        }
    }

    /// Ends a sample if it is large enough, and moves entries between the window and the main part.
    fn climb(&mut self) {
        if !self.sketch.is_on() {
            self.previous_ratio = 0.0;
            (self.hits, self.misses) = (0, 0);
        } else if self.hits + self.misses >= 10 * self.capacity as u64 {
            self.end_sample();
        }
        self.demote();
        if self.adjustment > 0 {
            self.grow_window();
        } else if self.adjustment < 0 {
            self.shrink_window();
        }
    }

    fn end_sample(&mut self) {
        let ratio = self.hits as f64 / (self.hits + self.misses) as f64;
        let change = ratio - self.previous_ratio;
        let amount = if change >= 0.0 { self.step } else { -self.step };
        self.step = if change.abs() >= 0.05 {
            (0.0625 * self.capacity as f64).copysign(amount)
        } else {
            0.98 * amount
        };
        self.previous_ratio = ratio;
        self.adjustment = amount as i64;
        (self.hits, self.misses) = (0, 0);
    }

    fn grow_window(&mut self) {
        let quota = (self.adjustment as usize).min(self.protected_limit);
        if quota == 0 {
            return;
        }
        self.protected_limit -= quota;
        self.window_limit += quota;
        self.demote();
        let left = self.transfer(quota, &[Part::Probation, Part::Protected], Part::Window);
        self.protected_limit += left;
        self.window_limit -= left;
        self.adjustment = left as i64;
    }

    fn shrink_window(&mut self) {
        if self.window_limit <= 1 {
            return;
        }
        let quota = (self.adjustment.unsigned_abs() as usize).min(self.window_limit - 1);
        self.protected_limit += quota;
        self.window_limit -= quota;
        let left = self.transfer(quota, &[Part::Window], Part::Probation);
        self.protected_limit -= left;
        self.window_limit += left;
        self.adjustment = -(left as i64);
    }

    /// Moves entries from the front of the first queue that has one, and returns the number that is left.
    fn transfer(&mut self, quota: usize, from: &[Part], to: Part) -> usize {
        let mut left = quota;
        for _ in 0..MOST_MOVES.min(quota) {
            let Some(entry) = from.iter().find_map(|part| self.queues.front(*part)) else {
                break;
            };
            self.queues.push(entry, to);
            left -= 1;
        }
        left
    }
}

/// Counts the model's hits. A key that isn't found is inserted. `hash` is the hash of a key.
pub fn model_hits(keys: &[u64], capacity: u64, hash: impl Fn(u64) -> u64) -> u64 {
    let (calls, hashes) = entries(keys, hash);
    let mut model = Model::new(capacity as usize, &hashes);
    calls.iter().filter(|entry| model.ask(**entry)).count() as u64
}
