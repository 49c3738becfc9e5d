//! The cache by its definitions (`crates/moka_unsync_model/specs`), written a second time: no line is shared with the cache that is compared with it. Entries
//! weigh 1 and don't expire.
use crate::model_parts::{entries, Part, Queues, Sketch};
use crate::traces::Settings;

/// The largest window that adapts, in percent of the capacity.
const MOST_WINDOW: usize = 80;
/// A demand of up to this part of the capacity is ignored.
const SLACK: usize = 64;
/// Halves of an entry by which the demand rises for a key that was rejected, and falls for one that main gave up.
const RISE: usize = 2;
const FALL: usize = 3;
/// The sketch of a smaller cache is that of this capacity.
const LEAST_COUNTED: usize = 128;
/// Words of the sketch for each tag, and the least number of tags.
const WORDS_A_TAG: usize = 8;
const LEAST_TAGS: usize = 8;

/// Tags of entries that left recently. It has none until the sketch counts.
#[derive(Default)]
struct Tags {
    tags: Vec<u16>,
    hand: usize,
}

impl Tags {
    fn new(capacity: usize) -> Tags {
        let count = capacity.next_power_of_two() / WORDS_A_TAG;
        Tags {
            tags: vec![0; count.max(LEAST_TAGS)],
            hand: 0,
        }
    }

    fn place(&self, hash: u64) -> (usize, u16) {
        let place = (hash >> 20) as usize & (self.tags.len() - 1);
        (place, (hash >> 48) as u16 | 1)
    }

    /// Notes an entry, and forgets the tag below the hand.
    fn note(&mut self, hash: u64) {
        if self.tags.is_empty() {
            return;
        }
        self.tags[self.hand] = 0;
        self.hand = (self.hand + 1) % self.tags.len();
        let (place, tag) = self.place(hash);
        self.tags[place] = tag;
    }

    /// Forgets an entry. Returns `true` if it was noted.
    fn take(&mut self, hash: u64) -> bool {
        if self.tags.is_empty() {
            return false;
        }
        let (place, tag) = self.place(hash);
        let is_noted = self.tags[place] == tag;
        if is_noted {
            self.tags[place] = 0;
        }
        is_noted
    }
}

struct Definitions<'a> {
    hashes: &'a [u64],
    settings: Settings,
    capacity: usize,
    queues: Queues,
    sketch: Sketch,
    entries: usize,
    window: usize,
    /// What the window is to have beyond its share, in halves of an entry.
    demand: usize,
    rejected: Tags,
    displaced: Tags,
}

impl<'a> Definitions<'a> {
    fn new(settings: Settings, hashes: &'a [u64]) -> Definitions<'a> {
        let capacity = settings.capacity as usize;
        Definitions {
            hashes,
            settings,
            capacity,
            queues: Queues::new(hashes.len()),
            sketch: Sketch::default(),
            entries: 0,
            window: capacity * settings.window_share as usize / 100,
            demand: 0,
            rejected: Tags::default(),
            displaced: Tags::default(),
        }
    }

    /// Looks an entry up, and inserts it if it isn't found. Returns `true` if it is.
    fn call(&mut self, entry: usize) -> bool {
        self.sketch.increment(self.hashes[entry]);
        let found = self.queues.part[entry];
        match found {
            Some(part) => self.touch(entry, part),
            None => self.insert(entry),
        }
        found.is_some()
    }

    fn touch(&mut self, entry: usize, part: Part) {
        let to = match part {
            Part::Probation if self.protected() > 0 => Part::Protected,
            part => part,
        };
        self.queues.push(entry, to);
        self.demote();
    }

    /// Returns the capacity outside of the window.
    fn main(&self) -> usize {
        self.capacity - self.window
    }

    /// Returns the most entries that are protected.
    fn protected(&self) -> usize {
        self.main() * self.settings.protected_share as usize / 100
    }

    fn demote(&mut self) {
        while self.queues.len(Part::Protected) > self.protected() {
            let Some(entry) = self.queues.front(Part::Protected) else {
                return;
            };
            self.queues.push(entry, Part::Probation);
        }
    }

    fn in_main(&self) -> usize {
        self.queues.len(Part::Probation) + self.queues.len(Part::Protected)
    }

    /// Returns the entry of main that is evicted next.
    fn victim(&self) -> Option<usize> {
        let probation = self.queues.front(Part::Probation);
        probation.or_else(|| self.queues.front(Part::Protected))
    }

    fn insert(&mut self, entry: usize) {
        let hash = self.hashes[entry];
        let was_rejected = self.rejected.take(hash);
        let was_displaced = !was_rejected && self.displaced.take(hash);
        self.queues.push(entry, Part::Window);
        self.entries += 1;
        while self.queues.len(Part::Window) > self.window || self.entries > self.capacity {
            self.judge();
        }
        if was_rejected || was_displaced {
            self.adapt(was_rejected);
        }
        if !self.sketch.is_on() && self.entries >= self.capacity / 2 {
            let counted = self.capacity.max(LEAST_COUNTED);
            self.sketch.enable(counted as u64);
            if self.settings.is_adaptive {
                self.rejected = Tags::new(counted);
                self.displaced = Tags::new(counted);
            }
        }
    }

    /// Decides whether the window's first entry enters main, and which one leaves for it.
    fn judge(&mut self) {
        let Some(candidate) = self.queues.front(Part::Window) else {
            return;
        };
        if self.in_main() < self.main() {
            self.queues.push(candidate, Part::Probation);
            return;
        }
        let frequency = |entry: usize| self.sketch.frequency(self.hashes[entry]);
        let victim = self.victim();
        match victim.filter(|victim| frequency(candidate) > frequency(*victim)) {
            Some(victim) => {
                self.give_up(victim);
                self.queues.push(candidate, Part::Probation);
            }
            None => {
                self.queues.remove(candidate);
                self.entries -= 1;
                self.rejected.note(self.hashes[candidate]);
            }
        }
    }

    /// Evicts an entry of main.
    fn give_up(&mut self, victim: usize) {
        self.queues.remove(victim);
        self.entries -= 1;
        self.displaced.note(self.hashes[victim]);
    }

    /// Changes the window after a new key that was noted. If it grows, main gives up an entry at most.
    fn adapt(&mut self, was_rejected: bool) {
        let least = self.capacity * self.settings.window_share as usize / 100;
        let most = self.capacity * MOST_WINDOW / 100 - least;
        let slack = self.capacity / SLACK;
        self.demand = if was_rejected {
            (self.demand + RISE).min(2 * (most + slack))
        } else {
            self.demand.saturating_sub(FALL)
        };
        self.window = least + (self.demand / 2).saturating_sub(slack);
        if self.in_main() > self.main() {
            if let Some(victim) = self.victim() {
                self.give_up(victim);
            }
        }
        self.demote();
    }
}

/// Counts the hits of a cache with these settings. A key that isn't found is inserted. `hash` is the hash of a key.
pub fn defined_hits(settings: &Settings, keys: &[u64], hash: impl Fn(u64) -> u64) -> u64 {
    let (calls, hashes) = entries(keys, hash);
    let mut cache = Definitions::new(*settings, &hashes);
    calls.iter().filter(|entry| cache.call(**entry)).count() as u64
}
