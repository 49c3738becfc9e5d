//! Makes traces.

use crate::memory::{filled, reserve, OutOfMemory};
use crate::random::{spread, Random};
use std::collections::VecDeque;
use std::io::{self, Write};

/// A kind of trace.
#[derive(Clone, Copy, Debug, PartialEq, Eq)]
pub enum Kind {
    /// Popular keys.
    Zipf,
    /// By turns popular keys, and a scan of others.
    Scan,
    /// The same keys round and round.
    Loop,
    /// Popular keys, all of which change after each tenth of the trace.
    Drift,
    /// New keys, each requested three times more soon after, and then never again.
    Soon,
    /// Popular keys that are replaced one by one.
    Churn,
    /// Soon, popular keys, a loop, soon, and other popular keys, a fifth each.
    Phases,
    /// Soon, a loop five times, and soon.
    Stress,
}

impl Kind {
    pub const ALL: [(&'static str, Kind); 8] = [
        ("zipf", Kind::Zipf),
        ("scan", Kind::Scan),
        ("loop", Kind::Loop),
        ("drift", Kind::Drift),
        ("soon", Kind::Soon),
        ("churn", Kind::Churn),
        ("phases", Kind::Phases),
        ("stress", Kind::Stress),
    ];
}

/// A source of keys.
type Source = Box<dyn FnMut() -> u64>;

/// The exponent of the distribution of popular keys.
const EXPONENT: f64 = 0.99;

/// The same, for those within phases.
const PHASE_EXPONENT: f64 = 0.9;

/// Writes a trace of `count` requests, one a line. As CSV, each has a size that depends on its key, and
/// comes up to 20 ms after the one before.
pub fn write(
    kind: Kind,
    count: u64,
    seed: u64,
    is_csv: bool,
    out: &mut impl Write,
) -> Result<(), MakeError> {
    let mut key = source(kind, count, seed)?;
    let mut random = Random(spread(seed ^ 0x71AE));
    let mut milliseconds = 0;
    if is_csv {
        writeln!(out, "key,size,time")?;
    }
    for _ in 0..count {
        let key = key();
        if is_csv {
            milliseconds += random.below(21);
            writeln!(
                out,
                "{key},{},{}.{:03}",
                size(key),
                milliseconds / 1000,
                milliseconds % 1000
            )?;
        } else {
            writeln!(out, "{key}")?;
        }
    }
    out.flush()?;
    Ok(())
}

/// The error of a trace that can't be made.
#[derive(Debug)]
pub enum MakeError {
    OutOfMemory,
    Io(io::Error),
}

impl From<OutOfMemory> for MakeError {
    fn from(_: OutOfMemory) -> MakeError {
        MakeError::OutOfMemory
    }
}

impl From<io::Error> for MakeError {
    fn from(error: io::Error) -> MakeError {
        MakeError::Io(error)
    }
}

/// Returns the size of a key's entry: from 64 bytes to 64 KiB, each power of two as often as another.
fn size(key: u64) -> u64 {
    let bits = spread(key ^ 0x517E);
    let least = 64 << (bits % 10);
    least + (bits >> 8) % least
}

/// Returns the source of the keys of a trace. The number of keys follows from the length.
fn source(kind: Kind, count: u64, seed: u64) -> Result<Source, OutOfMemory> {
    let keys = (count / 10).max(100);
    Ok(match kind {
        Kind::Zipf => zipf(keys, EXPONENT, seed)?,
        Kind::Scan => scan(keys, count, seed)?,
        Kind::Loop => counter(0, keys),
        Kind::Drift => drift(keys, count, seed)?,
        Kind::Soon => soon((count / 2500).max(100), 0, seed),
        Kind::Churn => churn(keys, seed)?,
        Kind::Phases => phases(keys, count, seed)?,
        Kind::Stress => stress(count, seed),
    })
}

/// Returns keys from 0 on, each as often as a Zipf distribution has it.
fn zipf(keys: u64, exponent: f64, seed: u64) -> Result<Source, OutOfMemory> {
    let mut sums = Vec::new();
    reserve(&mut sums, usize::try_from(keys).map_err(|_| OutOfMemory)?)?;
    let mut total = 0.0;
    for rank in 1..=keys {
        total += (rank as f64).powf(-exponent);
        sums.push(total);
    }
    let mut random = Random(spread(seed));
    Ok(Box::new(move || {
        let at = random.unit() * total;
        sums.partition_point(|sum| *sum <= at) as u64 % keys
    }))
}

/// Returns `first` and the `keys` keys from it on, round and round.
fn counter(first: u64, keys: u64) -> Source {
    let mut at = 0;
    Box::new(move || {
        let key = first + at;
        at = (at + 1) % keys;
        key
    })
}

fn scan(keys: u64, count: u64, seed: u64) -> Result<Source, OutOfMemory> {
    let mut popular = zipf(keys, EXPONENT, seed)?;
    let mut scanned = counter(keys, keys / 2);
    let turn = (count / 100).max(1);
    let mut call = 0;
    Ok(Box::new(move || {
        let is_popular = call / turn % 2 == 0;
        call += 1;
        if is_popular {
            popular()
        } else {
            scanned()
        }
    }))
}

fn drift(keys: u64, count: u64, seed: u64) -> Result<Source, OutOfMemory> {
    let mut popular = zipf(keys, EXPONENT, seed)?;
    let turn = (count / 10).max(1);
    let mut call = 0;
    Ok(Box::new(move || {
        let moved = call / turn * (keys / 7);
        call += 1;
        (popular() + moved) % keys
    }))
}

/// Returns new keys from `first` on, each three times more within the next `within` requests or some
/// later.
fn soon(within: u64, first: u64, seed: u64) -> Source {
    let mut random = Random(spread(seed));
    let mut fresh = first;
    // For each of the next requests the keys that are due then.
    let mut due: VecDeque<Vec<u64>> = VecDeque::new();
    Box::new(move || {
        let mut now = due.pop_front().unwrap_or_default();
        due.resize(within as usize, Vec::new());
        match now.pop() {
            // The others that are due now come in the next request.
            Some(key) => {
                due[0].append(&mut now);
                key
            }
            None => {
                let key = fresh;
                fresh += 1;
                for _ in 0..3 {
                    due[random.below(within) as usize].push(key);
                }
                key
            }
        }
    })
}

fn churn(keys: u64, seed: u64) -> Result<Source, OutOfMemory> {
    let mut popular = zipf(keys, EXPONENT, seed)?;
    let mut names = filled(usize::try_from(keys).map_err(|_| OutOfMemory)?, 0)?;
    for (name, at) in names.iter_mut().zip(0..) {
        *name = at;
    }
    let mut fresh = keys;
    let mut call = 0;
    Ok(Box::new(move || {
        if call % 20 == 0 {
            let replaced = popular();
            names[replaced as usize] = fresh;
            fresh += 1;
        }
        call += 1;
        names[popular() as usize]
    }))
}

/// Returns the requests of each source in turn, so many of each, and of the last one all others.
fn one_after_another(mut sources: Vec<(u64, Source)>) -> Source {
    let mut at = 0;
    Box::new(move || {
        while at + 1 < sources.len() && sources[at].0 == 0 {
            at += 1;
        }
        sources[at].0 = sources[at].0.saturating_sub(1);
        sources[at].1()
    })
}

fn phases(keys: u64, count: u64, seed: u64) -> Result<Source, OutOfMemory> {
    let (part, within) = (count / 5, (count / 2000).max(100));
    let mut other = zipf(keys, PHASE_EXPONENT, seed ^ 2)?;
    let moved = move || (other() + keys / 2) % keys;
    Ok(one_after_another(vec![
        (part, soon(within, 2 * keys, seed)),
        (part, zipf(keys, PHASE_EXPONENT, seed ^ 1)?),
        (part, counter(keys, (keys / 5).max(1))),
        (part, soon(within, 2 * keys + count, seed ^ 3)),
        (part, Box::new(moved)),
    ]))
}

/// Returns a trace that is easy for a cache that evicts the least recently used entries, then one that is
/// hard for it, and one as the first.
fn stress(count: u64, seed: u64) -> Source {
    let (part, within) = (count * 7 / 17, (count / 850).max(200));
    let round = (count * 6 / 170).max(1);
    one_after_another(vec![
        (part, soon(within, round, seed)),
        (5 * round, counter(0, round)),
        (part, soon(within, round + count, seed ^ 1)),
    ])
}
