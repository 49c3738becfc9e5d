//! Runs a script on the original's `unsync::Cache`, and corrects its replies as the rules say.
use crate::panics;
use crate::rules::{End, Rule};
use crate::script::{Call, Script};
use crate::sketch;
use mini_moka::unsync::Cache;
use std::hash::{BuildHasher, Hasher};

/// Reply that the port must give to a line.
pub enum Reply {
    /// Words to match. If there is a rule, it has corrected the original's reply to them.
    Words(String, Option<Rule>),
    /// Pairs to match, in the original's order.
    Pairs(Vec<String>),
}

/// Result of a script on the original or on the model.
pub struct Run {
    /// Replies to the lines that were run, `ready` first.
    pub replies: Vec<Reply>,
    /// Reason for an early end that a rule allows.
    pub end: Option<End>,
    /// Reason for an early end that no rule allows.
    pub fault: Option<String>,
    pub met: Met,
}

/// Counts of the events that a script covers.
#[derive(Clone, Copy, Default)]
pub struct Met {
    /// Gets that found their key.
    pub hits: u64,
    /// New entries that were rejected.
    pub rejected: u64,
    /// New entries that were admitted in place of others.
    pub admitted: u64,
    /// Other calls that evicted entries because the weight was above the limit.
    pub trimmed: u64,
    /// Sketches that were turned on.
    pub sketches: u64,
    /// Predicates whose entries were removed from the original key by key.
    pub by_key: u64,
}

/// Runs the script on the original.
pub fn run(script: &Script) -> Run {
    let mut original = Original::new(script);
    let mut run = Run {
        replies: vec![words("ready")],
        end: None,
        fault: None,
        met: Met::default(),
    };
    for line in &script.lines {
        if original.stale_weight_decides(&line.call) {
            run.end = Some(End::StaleWeight);
            break;
        }
        match panics::caught(|| original.reply(&line.call)) {
            Ok(reply) => run.replies.push(reply),
            Err(panic) => {
                ended_by(&mut run, panic);
                run.met = original.met;
                // A panic may leave the cache inconsistent, so it isn't even dropped.
                std::mem::forget(original);
                return run;
            }
        }
        run.end = original.end;
        if run.end.is_some() {
            break;
        }
    }
    run.met = original.met;
    run
}

/// Records the panic that ended the script: as an end if a rule allows it, else as a fault.
fn ended_by(run: &mut Run, panic: panics::Panic) {
    if panic.is_subtraction_in("frequency_sketch.rs") {
        run.end = Some(End::Underflow);
    } else {
        run.fault = Some(format!("the original panics: {} ({})", panic.text, panic.file));
    }
}

fn words(words: &str) -> Reply {
    Reply::Words(words.to_string(), None)
}

/// Stored value, as in the port's scripts. The weight is that of the insert's line.
struct Stored {
    text: String,
    weight: u32,
}

type Stores = Cache<u64, Stored, Numbers>;

/// Excess of the original's sums over those of its entries.
#[derive(Clone, Copy, Default)]
struct Stale {
    count: u64,
    weight: u64,
}

struct Original {
    cache: Stores,
    max: Option<u64>,
    weighed: bool,
    by_key: bool,
    met: Met,
    /// Measured only after calls that a rule is about.
    stale: Stale,
    sketch_is_on: bool,
    end: Option<End>,
}

impl Original {
    fn new(script: &Script) -> Original {
        Original {
            cache: built(script),
            max: script.max,
            weighed: script.weighed,
            by_key: script.by_key,
            met: Met::default(),
            stale: Stale::default(),
            sketch_is_on: false,
            end: None,
        }
    }

    fn reply(&mut self, call: &Call) -> Reply {
        let count = self.cache.entry_count();
        let admitted = self.met.admitted;
        let reply = self.reply_to(call);
        if self.cache.entry_count() < count && self.met.admitted == admitted {
            self.met.trimmed += 1;
        }
        reply
    }

    fn reply_to(&mut self, call: &Call) -> Reply {
        match call {
            Call::Get(key) => self.get(key),
            Call::Has(key) => words(if self.cache.contains_key(key) { "true" } else { "false" }),
            Call::Insert { key, text, weight } => self.insert(*key, text, *weight),
            Call::Invalidate(key) => self.invalidate(key),
            Call::Clear => self.clear(),
            Call::DropIf(text) => self.drop_if(text),
            Call::Count => mended(self.cache.entry_count(), self.stale.count, Rule::CountAfterRemovals),
            Call::Weight => mended(self.cache.weighted_size(), self.stale.weight, Rule::WeightAfterPredicate),
            Call::Iter => Reply::Pairs(self.pairs()),
            Call::Policy => words(&self.policy()),
        }
    }

    fn get(&mut self, key: &u64) -> Reply {
        let Some(stored) = self.cache.get(key) else {
            return words("none");
        };
        self.met.hits += 1;
        words(&format!("some {}", stored.text))
    }

    fn insert(&mut self, key: u64, text: &str, weight: u32) -> Reply {
        let is_new = !self.holds(key);
        let count = self.cache.entry_count();
        let text = text.to_string();
        self.cache.insert(key, Stored { text, weight });
        if is_new && self.holds(key) {
            self.met.admitted += u64::from(self.cache.entry_count() <= count);
            self.see_to_sketch();
        } else if is_new {
            self.met.rejected += 1;
        }
        words("ok")
    }

    fn invalidate(&mut self, key: &u64) -> Reply {
        self.cache.invalidate(key);
        self.stale.count = self.measured().count;
        words("ok")
    }

    fn clear(&mut self) -> Reply {
        self.cache.invalidate_all();
        self.stale = self.measured();
        words("ok")
    }

    fn drop_if(&mut self, text: &str) -> Reply {
        if self.by_key && self.keys_leave_alike() {
            self.met.by_key += 1;
            for key in self.keys_of(text) {
                self.cache.invalidate(&key);
            }
            self.stale.count = self.measured().count;
        } else {
            self.cache.invalidate_entries_if(|_, stored| stored.text == text);
            self.stale = self.measured();
        }
        words("ok")
    }

    /// Returns `true` if removing the entries key by key avoids the wrong weight that `invalidate_entries_if` leaves. `invalidate`
    /// also evicts if the weight is above the limit, which a predicate's call doesn't. Without a limit there is nothing to correct.
    fn keys_leave_alike(&self) -> bool {
        self.stale.weight == 0 && self.max.is_some_and(|max| self.cache.weighted_size() <= max)
    }

    /// Measures the excess of the sums over those of the entries.
    fn measured(&self) -> Stale {
        Stale {
            count: self.cache.entry_count() - self.entries(),
            weight: self.cache.weighted_size() - self.weight(),
        }
    }

    fn entries(&self) -> u64 {
        self.cache.iter().count() as u64
    }

    fn weight(&self) -> u64 {
        self.cache.iter().map(|(_, stored)| u64::from(stored.weight)).sum()
    }

    fn holds(&self, key: u64) -> bool {
        self.cache.iter().any(|(held, _)| *held == key)
    }

    fn keys_of(&self, text: &str) -> Vec<u64> {
        let of_text = self.cache.iter().filter(|(_, stored)| stored.text == text);
        of_text.map(|(key, _)| *key).collect()
    }

    fn pairs(&self) -> Vec<String> {
        self.cache.iter().map(|(key, stored)| format!("{key}={}", stored.text)).collect()
    }

    fn policy(&self) -> String {
        let policy = self.cache.policy();
        let max = policy.max_capacity().map_or("-".to_string(), |max| max.to_string());
        let live = nanos(policy.time_to_live());
        let idle = nanos(policy.time_to_idle());
        format!("max {max} live {live} idle {idle}")
    }

    /// Returns `true` if the wrong weight that a predicate's call left changes what this call evicts or rejects.
    fn stale_weight_decides(&self, call: &Call) -> bool {
        let Some(max) = self.max.filter(|_| self.stale.weight > 0) else {
            return false;
        };
        let weight = self.cache.weighted_size();
        let mended = weight - self.stale.weight;
        match call {
            Call::Get(_) | Call::Has(_) | Call::Invalidate(_) => weight > max,
            Call::Insert { key, weight: added, .. } => {
                let added = u64::from(*added);
                let fits = (weight + added <= max, mended + added <= max);
                weight > max || (!self.holds(*key) && fits.0 != fits.1)
            }
            Call::Clear | Call::DropIf(_) | Call::Count | Call::Weight | Call::Iter | Call::Policy => false,
        }
    }

    /// Records if a new entry turns the sketch on, at half of the limit. Ends the script if the sums of the entries wouldn't turn it on,
    /// or would give it another capacity.
    fn see_to_sketch(&mut self) {
        let Some(max) = self.max.filter(|_| !self.sketch_is_on) else {
            return;
        };
        let weight = self.cache.weighted_size();
        let count = self.cache.entry_count();
        let asked = sketch::asked(self.weighed, max, count, weight);
        let mended_weight = weight - self.stale.weight;
        let mended = sketch::asked_in_whole_numbers(self.weighed, max, count - self.stale.count, mended_weight);
        self.sketch_is_on = asked.is_some();
        self.met.sketches += u64::from(self.sketch_is_on);
        if asked != mended {
            self.end = Some(self.reason());
        }
    }

    fn reason(&self) -> End {
        if self.stale.weight > 0 {
            End::StaleWeight
        } else if self.stale.count > 0 {
            End::StaleCount
        } else {
            End::Rounding
        }
    }
}

fn built(script: &Script) -> Stores {
    let mut builder = Cache::builder();
    if let Some(max) = script.max {
        builder = builder.max_capacity(max);
    }
    if let Some(initial) = script.initial {
        builder = builder.initial_capacity(initial);
    }
    if script.weighed {
        builder = builder.weigher(|_: &u64, stored: &Stored| stored.weight);
    }
    builder.build_with_hasher(Numbers)
}

/// Returns the original's number less its excess, with the rule if there is an excess.
fn mended(number: u64, stale: u64, rule: Rule) -> Reply {
    let rule = (stale > 0).then_some(rule);
    Reply::Words((number - stale).to_string(), rule)
}

fn nanos(duration: Option<std::time::Duration>) -> String {
    duration.map_or("-".to_string(), |duration| format!("{}ns", duration.as_nanos()))
}

/// Hashes a number to itself, as the port's scripts do.
#[derive(Clone, Copy)]
struct Numbers;

impl BuildHasher for Numbers {
    type Hasher = NumberHasher;

    fn build_hasher(&self) -> NumberHasher {
        NumberHasher { number: 0 }
    }
}

struct NumberHasher {
    number: u64,
}

impl Hasher for NumberHasher {
    fn finish(&self) -> u64 {
        self.number
    }

    fn write_u64(&mut self, number: u64) {
        self.number = number;
    }

    fn write(&mut self, _bytes: &[u8]) {
        unreachable!("keys are 64-bit numbers");
    }
}
