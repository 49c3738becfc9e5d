//! Lists of calls that several threads make on one cache.
use crate::traces::{spread, Random, Zipf};

/// A call. An insert stores the key as value.
#[derive(Clone, Copy)]
pub enum Call {
    Get(u64),
    Insert(u64),
    /// Reads the entry count, which may be that of the last maintenance.
    Count,
    /// Runs a whole maintenance.
    Sync,
}

pub const CAPACITY: u64 = 100_000;
pub const CALLS: usize = 500_000;
const KEYS: u64 = 1_000_000;

impl Call {
    /// Returns the call with a key that no list has.
    fn of_another_key(self) -> Call {
        match self {
            Call::Get(key) => Call::Get(!key),
            Call::Insert(key) => Call::Insert(!key),
            other => other,
        }
    }
}

/// Lists of calls, with `gets` gets in a hundred calls.
pub struct Mix {
    pub gets: u64,
    /// A list for each thread. A thread that plays alone has the first.
    pub lists: Vec<Vec<Call>>,
}

/// Returns the calls that fill a new cache: inserts of the `CAPACITY` most frequent keys, the most frequent last.
pub fn filling() -> Vec<Call> {
    (0..CAPACITY)
        .rev()
        .map(|rank| Call::Insert(spread(rank)))
        .collect()
}

impl Mix {
    /// Makes lists of calls. Their keys follow a Zipf distribution, the same in each run and for each share of gets. A get that misses inserts nothing.
    pub fn new(gets: u64, threads: usize) -> Mix {
        let zipf = Zipf::new(KEYS);
        let list = |thread: usize| {
            let mut ranks = Random((thread as u64 + 1) << 32);
            let mut kinds = Random((thread as u64 + 1) << 48);
            (0..CALLS)
                .map(|_| {
                    let key = spread(zipf.next(&mut ranks));
                    match kinds.below(100) < gets {
                        true => Call::Get(key),
                        false => Call::Insert(key),
                    }
                })
                .collect()
        };
        Mix {
            gets,
            lists: (0..threads).map(list).collect(),
        }
    }

    /// Makes the lists of `new`, but all keys change halfway, and the cache must learn them.
    pub fn turning(gets: u64, threads: usize) -> Mix {
        let mut mix = Mix::new(gets, threads);
        for call in mix.lists.iter_mut().flat_map(|list| &mut list[CALLS / 2..]) {
            *call = call.of_another_key();
        }
        mix
    }

    /// Counts the gets of `threads` threads together.
    pub fn gets_of(&self, threads: usize) -> usize {
        self.lists[..threads]
            .iter()
            .flatten()
            .filter(|call| matches!(call, Call::Get(_)))
            .count()
    }
}

/// Returns a list for each of `threads` threads that only reads the counts.
pub fn counting(threads: usize) -> Vec<Vec<Call>> {
    vec![vec![Call::Count; CALLS]; threads]
}

/// Returns one list of maintenances only. They have nothing to do but publish the counts.
pub fn maintaining() -> Vec<Vec<Call>> {
    vec![vec![Call::Sync; CALLS]]
}
