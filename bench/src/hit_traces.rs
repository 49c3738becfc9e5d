//! Traces for counting hits alone: the numbers of the keys that are looked up, in order.
use crate::traces::Random;

/// Number of keys in most traces.
pub const KEYS: u64 = 100_000;

/// Capacities, in tenths of a percent of the keys.
const SHARES: [u64; 5] = [1, 5, 10, 50, 100];

/// Number of calls of most traces.
pub(crate) const CALLS: usize = 1_000_000;

/// Number of calls during which a set of keys stays popular.
const DRIFT: usize = 100_000;

/// Number of calls in a turn of the scan mix.
const TURN: usize = 10_000;

/// Number of calls within which a key of `recent` is due again.
const SOON: u64 = 100;

/// Returns the capacities at which hits are counted.
pub fn capacities() -> [u64; SHARES.len()] {
    SHARES.map(|share| KEYS * share / 1000)
}

/// Name and keys of a trace.
pub struct HitTrace {
    pub name: &'static str,
    pub keys: Vec<u64>,
}

/// Returns a generator of ranks from 0 on, in a Zipf distribution with this exponent.
pub(crate) fn zipf(exponent: f64, seed: u64) -> impl FnMut() -> u64 {
    let mut total = 0.0;
    let sums: Vec<f64> = (1..=KEYS)
        .map(|rank| {
            total += (rank as f64).powf(-exponent);
            total
        })
        .collect();
    let mut random = Random(seed);
    move || {
        let at = random.unit() * total;
        sums.partition_point(|sum| *sum <= at) as u64 % KEYS
    }
}

fn zipf_keys(exponent: f64) -> Vec<u64> {
    let mut rank = zipf(exponent, 1);
    (0..CALLS).map(|_| rank()).collect()
}

/// Returns by turns popular keys, and a scan of other keys that recur only after a long time.
fn scan_mix() -> Vec<u64> {
    let mut rank = zipf(0.99, 1);
    let mut scanned = 0;
    (0..CALLS)
        .map(|call| {
            if call / TURN % 2 == 0 {
                return rank();
            }
            scanned += 1;
            KEYS + scanned % (KEYS / 2)
        })
        .collect()
}

/// Returns popular keys, which change after each `DRIFT` calls.
fn drift() -> Vec<u64> {
    let mut rank = zipf(0.99, 1);
    (0..CALLS)
        .map(|call| {
            let moved = (call / DRIFT) as u64 * (KEYS / 7);
            (rank() + moved) % KEYS
        })
        .collect()
}

/// Returns new keys from `fresh` on, each of which recurs three times within `soon` calls after one that is due, and then never again.
pub(crate) fn recent(calls: usize, soon: u64, seed: u64, mut fresh: u64) -> Vec<u64> {
    let mut random = Random(seed);
    let mut again = vec![Vec::new(); calls];
    let mut keys = Vec::with_capacity(calls);
    while keys.len() < calls {
        let call = keys.len();
        match again[call].pop() {
            // The other keys that are due now move to the next call.
            Some(key) => {
                let late = std::mem::take(&mut again[call]);
                if let Some(next) = again.get_mut(call + 1) {
                    next.extend(late);
                }
                keys.push(key);
            }
            None => {
                for _ in 0..3 {
                    let due = call + 1 + random.below(soon) as usize;
                    if let Some(due) = again.get_mut(due) {
                        due.push(fresh);
                    }
                }
                keys.push(fresh);
                fresh += 1;
            }
        }
    }
    keys
}

/// Returns all traces, in the order of the table.
pub fn hit_traces() -> Vec<HitTrace> {
    let trace = |name, keys| HitTrace { name, keys };
    vec![
        trace("Zipf 0.8", zipf_keys(0.8)),
        trace("Zipf 0.99", zipf_keys(0.99)),
        trace("Zipf 1.1", zipf_keys(1.1)),
        trace("loop", (0..CALLS as u64).map(|call| call % KEYS).collect()),
        trace("scan mix", scan_mix()),
        trace("drifting hot set", drift()),
        trace("asked soon again", recent(CALLS, SOON, 3, 0)),
    ]
}
