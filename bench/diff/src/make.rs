//! Makes random scripts.
use crate::keys;
use crate::random::Random;
use crate::script::{Call, Line, Script, WINDOWED};
use crate::special;

/// Makes the script with this number.
pub fn script(seed: u64, number: u64) -> Script {
    let random = &mut Random::of_script(seed, number);
    match random.share(&[3800, 48, 150, 1, 1]) {
        0 => planned(random, Plan::new),
        1 => planned(random, Plan::that_ages),
        2 => planned(random, Plan::of_batches),
        3 => special::odd_counters(random),
        _ => special::rounded_capacity(random),
    }
}

fn planned(random: &mut Random, plan: impl Fn(&mut Random) -> Plan) -> Script {
    let plan = plan(random);
    let lines = plan.lines(random);
    Script {
        max: plan.max,
        weighed: plan.weighed,
        initial: initial(random),
        by_key: !random.one_in(3),
        lines,
    }
}

/// Draws the original's initial capacity.
pub fn initial(random: &mut Random) -> Option<usize> {
    *random.pick(&[None, None, Some(0), Some(1), Some(7), Some(64), Some(1000)])
}

/// Parameters for drawing a script's lines.
struct Plan {
    max: Option<u64>,
    weighed: bool,
    keys: Vec<u64>,
    /// Number of positions drawn for a key, the least of which is taken: the more draws, the more popular the first keys.
    draws: u64,
    /// Number of positions by which popularity moves along the list of keys during the script.
    drift: u64,
    /// Exclusive upper bound of the gets that repeat a get. An insert of the key then follows in half of the cases. If 0, neither happens.
    asked_again: u64,
    texts: Vec<String>,
    weights: Weights,
    shares: [u64; 10],
    moments: u64,
    /// Number of keys inserted before the mixed calls.
    filled: usize,
    length: u64,
}

/// Distribution of a script's weights.
struct Weights {
    most: u64,
    /// Average distance of heavy weights: one in this many is drawn up to `heavy`, the others up to `most`.
    heavy_in: u64,
    heavy: u64,
}

impl Plan {
    fn new(random: &mut Random) -> Plan {
        let length = length(random);
        let weighed = random.one_in(2);
        let entries = entries(random, length);
        let weights = weights(random, entries);
        let max = limit(random, entries, weighed.then_some(weights.most));
        let count = entries * random.between(1, 3) + random.below(4) + 1;
        let filled = if random.one_in(3) { random.below(count + 1) } else { 0 };
        Plan {
            max,
            weighed,
            keys: keys::keys(random, count),
            draws: random.between(1, 4),
            drift: *random.pick(&[0, 0, count / 2, 2 * count]),
            asked_again: *random.pick(&[0, 0, 2, 6, 16]),
            texts: texts(random),
            weights,
            shares: shares(random),
            moments: *random.pick(&[1, 1, 100, u64::MAX]),
            filled: filled as usize,
            length,
        }
    }

    /// Makes a plan of a script whose sketch ages several times, while new entries keep coming. The shortest table ages at a size of 1,280.
    fn that_ages(random: &mut Random) -> Plan {
        let count = random.between(80, 300);
        let max = random.between(5, 60);
        Plan {
            max: Some(max),
            weighed: random.one_in(4),
            keys: keys::keys(random, count),
            draws: random.between(1, 2),
            drift: *random.pick(&[0, count]),
            asked_again: random.between(1, 3),
            weights: Weights {
                most: 2,
                heavy_in: 50,
                heavy: max,
            },
            shares: [200, 20, 2, *random.pick(&[0, 5]), 0, 0, 1, 1, 1, 1],
            filled: max as usize,
            length: random.between(1500, 6000),
            ..Plan::new(random)
        }
    }

    /// Makes a plan of a script in which an update puts more entries above the limit than one call evicts. Without a window, most entries weigh 0.
    fn of_batches(random: &mut Random) -> Plan {
        let count = random.between(110, 350);
        let has_window = random.one_in(2);
        let max = if has_window { count } else { random.between(20, WINDOWED - 1) };
        let most = if has_window { random.between(1, 2) } else { 0 };
        let looks = random.between(0, 50);
        Plan {
            max: Some(max),
            weighed: true,
            keys: keys::keys(random, count),
            draws: random.between(1, 2),
            weights: Weights {
                most,
                heavy_in: random.between(4, 30),
                heavy: random.between(max / 2, 2 * max),
            },
            shares: [100, 100, looks, random.below(20), 0, random.below(5), looks, looks, 5, 1],
            filled: count as usize,
            length: random.between(20, 300),
            ..Plan::new(random)
        }
    }

    fn lines(&self, random: &mut Random) -> Vec<Line> {
        let mut lines = Vec::new();
        for key in &self.keys[..self.filled] {
            let weight = random.between(0, self.weights.most);
            let call = self.insert_weighed(random, *key, weight);
            lines.push(self.line(random, call));
        }
        let from = lines.len();
        while ((lines.len() - from) as u64) < self.length {
            let key = self.key(random, (lines.len() - from) as u64);
            let call = self.call(random, key);
            let is_get = matches!(call, Call::Get(_));
            lines.push(self.line(random, call));
            if is_get && self.asked_again > 0 {
                self.ask_again(random, key, &mut lines);
            }
        }
        for call in [Call::Count, Call::Weight, Call::Iter] {
            lines.push(self.line(random, call));
        }
        lines
    }

    fn line(&self, random: &mut Random, call: Call) -> Line {
        let moment = random.below(self.moments);
        Line { moment, call }
    }

    fn ask_again(&self, random: &mut Random, key: u64, lines: &mut Vec<Line>) {
        for _ in 0..random.below(self.asked_again) {
            lines.push(self.line(random, Call::Get(key)));
        }
        if random.one_in(2) {
            let call = self.insert(random, key);
            lines.push(self.line(random, call));
        }
    }

    fn call(&self, random: &mut Random, key: u64) -> Call {
        match random.share(&self.shares) {
            0 => Call::Get(key),
            1 => self.insert(random, key),
            2 => Call::Has(key),
            3 => Call::Invalidate(key),
            4 => Call::Clear,
            5 => Call::DropIf(random.pick(&self.texts).clone()),
            6 => Call::Count,
            7 => Call::Weight,
            8 => Call::Iter,
            _ => Call::Policy,
        }
    }

    fn insert(&self, random: &mut Random, key: u64) -> Call {
        let weight = self.weights.weight(random);
        self.insert_weighed(random, key, weight)
    }

    fn insert_weighed(&self, random: &mut Random, key: u64, weight: u64) -> Call {
        let weight = u32::try_from(weight).unwrap_or(u32::MAX);
        Call::Insert {
            key,
            text: random.pick(&self.texts).clone(),
            weight: if self.weighed { weight } else { 1 },
        }
    }

    /// Draws the key of the call after `calls` others.
    fn key(&self, random: &mut Random, calls: u64) -> u64 {
        let count = self.keys.len() as u64;
        let place = (0..self.draws).map(|_| random.below(count)).min().unwrap_or(0);
        let drifted = place + self.drift * calls / self.length;
        self.keys[(drifted % count) as usize]
    }
}

impl Weights {
    fn weight(&self, random: &mut Random) -> u64 {
        let most = if random.one_in(self.heavy_in) { self.heavy } else { self.most };
        random.between(0, most)
    }
}

/// Draws the number of mixed calls.
fn length(random: &mut Random) -> u64 {
    match random.share(&[40, 35, 20, 5]) {
        0 => random.between(3, 20),
        1 => random.between(20, 100),
        2 => random.between(100, 400),
        _ => random.between(400, 900),
    }
}

/// Draws the number of entries that the keys, the weights and the limit are scaled by.
fn entries(random: &mut Random, length: u64) -> u64 {
    let kind = if length < 400 {
        random.share(&[5, 3, 1, 0])
    } else {
        random.share(&[1, 3, 3, 2])
    };
    match kind {
        0 => random.between(0, 8),
        1 => random.between(9, 40),
        2 => random.between(60, 200),
        _ => random.between(200, 600),
    }
}

fn weights(random: &mut Random, entries: u64) -> Weights {
    let most = *random.pick(&[1, 2, 3, 10, 100, u64::from(u32::MAX)]);
    Weights {
        most,
        heavy_in: *random.pick(&[5, 20, 100]),
        heavy: *random.pick(&[
            most,
            entries.saturating_mul(most),
            3 * entries.saturating_mul(most) + 5,
            u64::from(u32::MAX),
        ]),
    }
}

/// Draws a limit that about `entries` entries reach, a larger one, an extreme one, or none.
fn limit(random: &mut Random, entries: u64, most_weight: Option<u64>) -> Option<u64> {
    let about = match most_weight {
        Some(most) => entries.saturating_mul(most) / 2 + random.below(3),
        None => entries,
    };
    match random.share(&[14, 1, 1, 2]) {
        0 => Some(about),
        1 => Some(about.saturating_mul(random.between(2, 1000))),
        2 => Some(*random.pick(&[0, 1, 1_000_000, u64::from(u32::MAX), u64::MAX - 1, u64::MAX])),
        _ => None,
    }
}

/// Draws the share of each kind of call.
fn shares(random: &mut Random) -> [u64; 10] {
    let gets = random.between(1, 200);
    let inserts = random.between(20, 200);
    let invalidates = *random.pick(&[0, 0, 5, 20, 60]);
    let clears = *random.pick(&[0, 0, 0, 1, 5]);
    let drops = *random.pick(&[0, 0, 2, 10, 30]);
    let looks = *random.pick(&[0, 5, 40]);
    [gets, inserts, looks, invalidates, clears, drops, looks, looks, 2, 1]
}

/// Draws the texts that are stored and dropped: few, so that several entries share one.
fn texts(random: &mut Random) -> Vec<String> {
    let count = random.between(1, 8);
    (0..count).map(|_| text(random)).collect()
}

/// Draws a text of 1 to 64 letters, digits and dashes.
fn text(random: &mut Random) -> String {
    const LETTERS: &[u8] = b"abcdefghijklmnopqrstuvwxyzABCDEFGHIJKLMNOPQRSTUVWXYZ0123456789-";
    let length = if random.one_in(8) {
        random.between(1, 64)
    } else {
        random.between(1, 3)
    };
    (0..length).map(|_| char::from(*random.pick(LETTERS))).collect()
}
