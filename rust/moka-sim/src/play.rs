//! Plays a trace on each cache, several at a time.

use crate::memory::{available, filled, OutOfMemory};
use crate::policies::{open, Counts, PlayError, Rules, Setting, Tally};
use crate::trace::Trace;
use std::fmt;
use std::sync::atomic::{AtomicU64, AtomicUsize, Ordering};
use std::sync::{Mutex, PoisonError};
use std::thread;
use std::time::Duration;

/// The parts of a trace whose hits are counted separately.
pub const PARTS: usize = 100;

/// The bytes that a cache takes for an entry beside its key and value: somewhat more than the library
/// needs.
const ENTRY: u64 = 256;

/// A cache that is to play the trace.
#[derive(Clone, Copy, Debug)]
pub struct Play {
    pub setting: Setting,
    pub rules: Rules,
}

/// What a cache did with the trace.
#[derive(Clone, Debug)]
pub struct Outcome {
    pub play: Play,
    pub tally: Tally,
    pub counts: Counts,
    pub parts: Vec<Part>,
}

/// What a cache did with a part of the trace.
#[derive(Clone, Copy, Debug, PartialEq, Eq)]
pub struct Part {
    pub requests: u64,
    pub hits: u64,
    /// The weight that the cache's window may have at the end of the part.
    pub window: Option<u64>,
}

impl Outcome {
    /// Returns the window's share of the capacity at the end, in percent.
    pub fn window_share(&self) -> Option<f64> {
        self.share_at(self.parts.len().checked_sub(1)?)
    }

    /// Returns the window's share of the capacity at the end of a part, in percent.
    pub fn share_at(&self, part: usize) -> Option<f64> {
        let window = self.parts[part].window?;
        Some(100.0 * window as f64 / self.play.rules.capacity as f64)
    }
}

/// The error of a trace that can't be played.
#[derive(Debug, PartialEq, Eq)]
pub enum Failure {
    Memory,
    TooLarge {
        capacity: u64,
        need: u64,
        available: u64,
    },
    Play {
        setting: Setting,
        capacity: u64,
        error: PlayError,
    },
}

impl From<OutOfMemory> for Failure {
    fn from(_: OutOfMemory) -> Failure {
        Failure::Memory
    }
}

impl fmt::Display for Failure {
    fn fmt(&self, f: &mut fmt::Formatter<'_>) -> fmt::Result {
        match self {
            Failure::Memory => f.write_str("there is no memory to play the trace"),
            Failure::TooLarge { capacity, need, available } => write!(
                f,
                "capacity {capacity}: a cache of the trace may take {need} bytes, and {available} are available; \
                 say a smaller --capacity"
            ),
            Failure::Play { setting, capacity, error } => {
                write!(f, "capacity {capacity}, {}: ", setting.name())?;
                match error {
                    PlayError::OutOfMemory => f.write_str("memory was refused"),
                    PlayError::Disagreement { counted, answered } => {
                        write!(f, "the library counted {counted} hits and answered {answered}")
                    }
                }
            }
        }
    }
}

/// Plays the trace on each cache, with up to `threads` at a time. Calls `progress` with the played
/// requests of all caches from time to time.
pub fn play_all(
    trace: &Trace,
    plays: &[Play],
    threads: usize,
    progress: impl Fn(u64),
) -> Result<Vec<Outcome>, Failure> {
    let threads = fitting(trace, plays, threads, available())?;
    let zeros = zeros(trace, plays)?;
    let done = AtomicU64::new(0);
    let next = AtomicUsize::new(0);
    let left = AtomicUsize::new(threads);
    let results = Mutex::new(Vec::new());
    thread::scope(|scope| {
        for _ in 0..threads {
            scope.spawn(|| {
                // The last ones have the largest capacities and take longest.
                while let Some(at) = plays
                    .len()
                    .checked_sub(next.fetch_add(1, Ordering::Relaxed) + 1)
                {
                    let result = play_one(trace, plays[at], &zeros, &done);
                    results
                        .lock()
                        .unwrap_or_else(PoisonError::into_inner)
                        .push((at, result));
                }
                left.fetch_sub(1, Ordering::Release);
            });
        }
        while left.load(Ordering::Acquire) > 0 {
            progress(done.load(Ordering::Relaxed));
            thread::sleep(Duration::from_millis(1));
        }
    });
    let mut results = results.into_inner().unwrap_or_else(PoisonError::into_inner);
    results.sort_by_key(|(at, _)| *at);
    results.into_iter().map(|(_, result)| result).collect()
}

/// Plays the trace on one cache.
fn play_one(trace: &Trace, play: Play, zeros: &[u8], done: &AtomicU64) -> Result<Outcome, Failure> {
    let failed = |error| Failure::Play {
        setting: play.setting,
        capacity: play.rules.capacity,
        error,
    };
    let mut policy = open(play.setting, play.rules, trace, zeros).map_err(failed)?;
    let mut whole = Tally::default();
    let mut parts = Vec::new();
    let count = PARTS.min(trace.len());
    for at in 0..count {
        let range = trace.len() * at / count..trace.len() * (at + 1) / count;
        let requests = range.len() as u64;
        let tally = policy.play(trace, range).map_err(failed)?;
        whole.hits += tally.hits;
        whole.hit_bytes += tally.hit_bytes;
        parts.push(Part {
            requests,
            hits: tally.hits,
            window: policy.window(),
        });
        done.fetch_add(requests, Ordering::Relaxed);
    }
    let counts = policy.counts(whole.hits).map_err(failed)?;
    Ok(Outcome {
        play,
        tally: whole,
        counts,
        parts,
    })
}

/// Returns how many caches of those fit into the memory at a time, at most `threads`.
fn fitting(
    trace: &Trace,
    plays: &[Play],
    threads: usize,
    available: Option<u64>,
) -> Result<usize, Failure> {
    let footprint = trace.footprint()?;
    let need = |play: &Play| need(trace, footprint, play);
    let threads = threads.clamp(1, plays.len().max(1));
    let (Some(largest), Some(available)) = (plays.iter().max_by_key(|play| need(play)), available)
    else {
        return Ok(threads);
    };
    let most = need(largest);
    if most > available {
        return Err(Failure::TooLarge {
            capacity: largest.rules.capacity,
            need: most,
            available,
        });
    }
    Ok(threads.min((available / most.max(1)) as usize))
}

/// Returns the bytes of memory that a cache takes at most.
fn need(trace: &Trace, footprint: u64, play: &Play) -> u64 {
    let capacity = play.rules.capacity;
    let keys = trace.keys.len() as u64;
    match play.setting {
        Setting::Lru => keys.saturating_mul(32),
        Setting::Belady => keys
            .saturating_mul(56)
            .saturating_add(trace.len() as u64 * 4),
        _ if play.rules.is_weighed => footprint
            .min(capacity)
            .saturating_add(keys.min(capacity).saturating_mul(ENTRY)),
        _ => {
            let entries = keys.min(capacity);
            entries
                .saturating_mul(ENTRY)
                .saturating_add(trace.keys.total_length() as u64)
        }
    }
}

/// Returns as many zeros as the longest value has that is played.
fn zeros(trace: &Trace, plays: &[Play]) -> Result<Vec<u8>, OutOfMemory> {
    let weighed = plays
        .iter()
        .filter(|play| play.rules.is_weighed && play.setting.is_library());
    let Some(capacity) = weighed.map(|play| play.rules.capacity).max() else {
        return Ok(Vec::new());
    };
    let longest = (0..trace.len())
        .map(|request| trace.bytes(request))
        .max()
        .unwrap_or(0);
    filled(longest.min(capacity.saturating_add(1)) as usize, 0)
}

#[cfg(test)]
mod tests {
    use super::*;

    #[test]
    fn so_many_caches_play_at_a_time_as_fit_into_memory() {
        let mut trace = Trace::new(true, false).expect("memory");
        for number in 0..2 {
            let key = trace.keys.number_of_number(number).expect("memory");
            trace.push(key, 100, 0).expect("memory");
        }
        let play = |setting, capacity| Play {
            setting,
            rules: Rules {
                capacity,
                is_weighed: true,
                time_to_live: None,
            },
        };
        let plays = [
            play(Setting::Lru, 150),
            play(Setting::Default, 50),
            play(Setting::Default, 150),
        ];
        let most = 150 + 2 * ENTRY;
        let fitting = |threads, available| fitting(&trace, &plays, threads, available);
        assert_eq!(fitting(2, Some(3 * most)), Ok(2));
        assert_eq!(fitting(9, Some(3 * most)), Ok(3));
        assert_eq!(fitting(9, Some(2 * most + 1)), Ok(2));
        assert_eq!(fitting(9, Some(most)), Ok(1));
        assert_eq!(fitting(9, None), Ok(3));
        assert_eq!(
            fitting(9, Some(most - 1)),
            Err(Failure::TooLarge {
                capacity: 150,
                need: most,
                available: most - 1
            })
        );
        assert_eq!(zeros(&trace, &plays), Ok(vec![0; 100]));
        assert_eq!(zeros(&trace, &plays[1..2]), Ok(vec![0; 51]));
        assert_eq!(zeros(&trace, &plays[..1]), Ok(Vec::new()));
    }
}
