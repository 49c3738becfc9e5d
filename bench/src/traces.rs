//! Traces: lists of operations, with the settings of the cache that they are played on.

/// Value of a capacity or duration that isn't set.
pub const UNLIMITED: u64 = u64::MAX;

pub const GET: u32 = 0;
pub const INSERT: u32 = 1;
pub const READ_THROUGH: u32 = 2;
pub const GET_AND_INSERT: u32 = 3;
pub const REMOVE_AND_INSERT: u32 = 4;

/// An operation, in the layout of the static library.
#[repr(C)]
#[derive(Clone, Copy)]
pub struct Operation {
    pub key: u64,
    pub value: u32,
    pub kind: u32,
}

/// Returns a call that reads through for each key.
pub fn look_ups(keys: &[u64]) -> Vec<Operation> {
    let look_up = |key: &u64| Operation {
        key: *key,
        value: *key as u32,
        kind: READ_THROUGH,
    };
    keys.iter().map(look_up).collect()
}

/// Settings of a cache, in the layout of the static library.
#[repr(C)]
#[derive(Clone, Copy)]
pub struct Settings {
    pub capacity: u64,
    pub time_to_live: u64,
    pub time_to_idle: u64,
    pub start: u64,
    pub tick: u64,
    pub is_weighed: bool,
    /// True if each side uses its own default hash state instead of the multiplication that all have in common.
    pub is_std_hashed: bool,
    /// The port's shares of the window and of protected entries, in percent.
    pub window_share: u8,
    pub protected_share: u8,
    /// True if the port's window adapts to the calls.
    pub is_adaptive: bool,
}

impl Settings {
    pub fn with_capacity(capacity: u64) -> Settings {
        Settings {
            capacity,
            time_to_live: UNLIMITED,
            time_to_idle: UNLIMITED,
            start: 0,
            tick: 0,
            is_weighed: false,
            is_std_hashed: false,
            window_share: 1,
            protected_share: 0,
            is_adaptive: false,
        }
    }

    /// Returns the settings with other shares than the default ones.
    pub fn with_shares(self, window_share: u8, protected_share: u8) -> Settings {
        Settings {
            window_share,
            protected_share,
            ..self
        }
    }

    /// Returns the settings with a window that adapts, from its usual start.
    pub fn adaptive(self) -> Settings {
        Settings {
            is_adaptive: true,
            ..self.with_shares(1, 80)
        }
    }

    /// Returns the settings with both durations, of an hour. Moments are a nanosecond apart, so nothing expires.
    pub fn with_durations(self) -> Settings {
        Settings {
            time_to_live: HOUR,
            time_to_idle: HOUR,
            tick: 1,
            ..self
        }
    }

    pub fn with_time_to_live(self) -> Settings {
        Settings {
            time_to_live: HOUR,
            tick: 1,
            ..self
        }
    }

    pub fn weighed(self) -> Settings {
        Settings {
            is_weighed: true,
            ..self
        }
    }

    pub fn std_hashed(self) -> Settings {
        Settings {
            is_std_hashed: true,
            ..self
        }
    }

    pub fn has_durations(&self) -> bool {
        self.time_to_live != UNLIMITED || self.time_to_idle != UNLIMITED
    }
}

const HOUR: u64 = 3_600_000_000_000;

/// A list of operations. The first `filling` of them fill the cache and aren't counted.
pub struct Trace {
    pub name: String,
    pub settings: Settings,
    pub filling: usize,
    pub operations: Vec<Operation>,
    /// True if a map without a limit gives the same results.
    pub fits_a_map: bool,
}

impl Trace {
    pub fn counted(&self) -> usize {
        self.operations.len() - self.filling
    }
}

/// Spreads numbers by the finalizer of splitmix64.
pub fn spread(number: u64) -> u64 {
    let mut z = number.wrapping_add(0x9E37_79B9_7F4A_7C15);
    z = (z ^ (z >> 30)).wrapping_mul(0xBF58_476D_1CE4_E5B9);
    z = (z ^ (z >> 27)).wrapping_mul(0x94D0_49BB_1331_11EB);
    z ^ (z >> 31)
}

/// Pseudorandom numbers, the same in each run.
pub struct Random(pub u64);

impl Random {
    fn next(&mut self) -> u64 {
        self.0 = self.0.wrapping_add(1);
        spread(self.0)
    }

    pub fn below(&mut self, bound: u64) -> u64 {
        ((u128::from(self.next()) * u128::from(bound)) >> 64) as u64
    }

    pub(crate) fn unit(&mut self) -> f64 {
        (self.next() >> 11) as f64 / (1u64 << 53) as f64
    }
}

pub const CALLS: usize = 2_000_000;
const KEYS: usize = 1_000_000;
const EXPONENT: f64 = 0.99;

/// Returns `count` ranks in a Zipf distribution.
fn zipf_ranks(count: usize) -> Vec<u64> {
    let mut total = 0.0;
    let sums: Vec<f64> = (1..=KEYS)
        .map(|rank| {
            total += (rank as f64).powf(-EXPONENT);
            total
        })
        .collect();
    let mut random = Random(1);
    (0..count)
        .map(|_| {
            let at = random.unit() * total;
            sums.partition_point(|sum| *sum <= at).min(KEYS - 1) as u64
        })
        .collect()
}

/// A Zipf distribution over any number of ranks, without a table: by rejection-inversion (Hörmann and Derflinger, 1996).
pub struct Zipf {
    ranks: f64,
    from: f64,
    to: f64,
    near: f64,
}

impl Zipf {
    pub fn new(ranks: u64) -> Zipf {
        let ranks = ranks as f64;
        Zipf {
            ranks,
            from: Zipf::area(1.5) - 1.0,
            to: Zipf::area(ranks + 0.5),
            near: 2.0 - Zipf::place(Zipf::area(2.5) - 2f64.powf(-EXPONENT)),
        }
    }

    /// Returns the area below the distribution's hat, from 1 to `rank`.
    fn area(rank: f64) -> f64 {
        (rank.powf(1.0 - EXPONENT) - 1.0) / (1.0 - EXPONENT)
    }

    /// Returns the rank up to which the area below the hat is `area`.
    fn place(area: f64) -> f64 {
        (1.0 + area * (1.0 - EXPONENT)).powf(1.0 / (1.0 - EXPONENT))
    }

    pub fn next(&self, random: &mut Random) -> u64 {
        loop {
            let area = self.to + random.unit() * (self.from - self.to);
            let place = Zipf::place(area);
            let rank = place.round().clamp(1.0, self.ranks);
            if rank - place <= self.near || area >= Zipf::area(rank + 0.5) - rank.powf(-EXPONENT) {
                return rank as u64 - 1;
            }
        }
    }
}

/// Returns the trace of `zipf_one_percent` with two calls for each entry of the capacity, and at least two million.
pub fn growing(entries: u64) -> Trace {
    zipf_one_percent(entries, CALLS.max(2 * entries as usize))
}

/// Returns a trace that reads through, with a hundred keys in a Zipf distribution for each entry of the capacity.
pub fn zipf_one_percent(entries: u64, calls: usize) -> Trace {
    let zipf = Zipf::new(100 * entries);
    let mut random = Random(1);
    let ranks: Vec<u64> = (0..calls).map(|_| zipf.next(&mut random)).collect();
    read_through(
        &format!("{ZIPF_ONE}, {entries}"),
        Settings::with_capacity(entries),
        &ranks,
    )
}

fn operation(kind: u32, number: u64) -> Operation {
    let key = spread(number);
    Operation {
        key,
        value: key as u32,
        kind,
    }
}

/// Replaces the value of an operation by a weight of 1 to 16.
fn weighed(operation: Operation) -> Operation {
    Operation {
        value: 1 + operation.value % 16,
        ..operation
    }
}

fn read_through(name: &str, settings: Settings, numbers: &[u64]) -> Trace {
    let operations = numbers
        .iter()
        .map(|number| operation(READ_THROUGH, *number))
        .map(|operation| match settings.is_weighed {
            true => weighed(operation),
            false => operation,
        })
        .collect();
    Trace {
        name: name.into(),
        settings,
        filling: 0,
        operations,
        fits_a_map: false,
    }
}

/// Returns the traces that read through: each look-up that misses inserts its key.
pub fn read_through_traces() -> Vec<Trace> {
    let ranks = zipf_ranks(CALLS);
    let one = Settings::with_capacity(KEYS as u64 / 100);
    let ten = Settings::with_capacity(KEYS as u64 / 10);
    let weight = |settings: Settings| {
        Settings {
            capacity: settings.capacity * 17 / 2,
            ..settings
        }
        .weighed()
    };
    let looped: Vec<u64> = (0..CALLS as u64).map(|call| call % 12_500).collect();
    vec![
        read_through(ZIPF_ONE, one, &ranks),
        read_through("Zipf 10%", ten, &ranks),
        read_through("Zipf 1%, both durations", one.with_durations(), &ranks),
        read_through("Zipf 10%, both durations", ten.with_durations(), &ranks),
        read_through("Zipf 1%, weighed", weight(one), &ranks),
        read_through("Zipf 10%, weighed", weight(ten), &ranks),
        read_through("loop", one, &looped),
        read_through("scan mix", one, &scan_mix(&ranks)),
    ]
}

/// Returns by turns 10,000 ranks and 10,000 numbers of a loop over 50,000 other keys.
fn scan_mix(ranks: &[u64]) -> Vec<u64> {
    let (turn, looped) = (10_000, 50_000);
    let mut taken = 0;
    let mut scanned = 0;
    let mut numbers = Vec::new();
    while numbers.len() < CALLS {
        if numbers.len() / turn % 2 == 0 {
            numbers.push(ranks[taken]);
            taken += 1;
        } else {
            numbers.push((KEYS + scanned % looped) as u64);
            scanned += 1;
        }
    }
    numbers
}

/// Returns a trace for each kind of call, on a full cache of `entries` entries.
pub fn single_calls(entries: u64) -> Vec<Trace> {
    single_calls_of(entries, CALLS)
}

/// Returns the traces of `single_calls`, with `calls` calls each.
pub fn single_calls_of(entries: u64, calls: usize) -> Vec<Trace> {
    let single = |name: &str, kind: u32, number: &mut dyn FnMut(u64) -> u64, fits_a_map| {
        let filling = (0..entries).map(|number| operation(INSERT, number));
        let counted = (0..calls as u64).map(|call| operation(kind, number(call)));
        Trace {
            name: format!("{name}, {entries}"),
            settings: Settings::with_capacity(entries),
            filling: entries as usize,
            operations: filling.chain(counted).collect(),
            fits_a_map,
        }
    };
    let mut random = Random(2);
    let mut present = |_call| random.below(entries);
    let mut other = Random(2);
    let mut absent = |_call| entries + other.below(entries);
    let mut fresh = |call| entries + call;
    vec![
        single("get hit", GET, &mut present, true),
        single("get miss", GET, &mut absent, true),
        single("update", INSERT, &mut present, true),
        single("new key into a full cache", INSERT, &mut fresh, false),
        single("get and insert, new key", GET_AND_INSERT, &mut fresh, false),
        single("remove and insert", REMOVE_AND_INSERT, &mut present, true),
    ]
}

/// Returns some traces twice: with the multiplication that all sides have in common, and with each side's own default hash state.
pub fn std_hashed_traces() -> Vec<Trace> {
    let read_through = read_through_traces().into_iter().take(2);
    let single = single_calls(10_000).into_iter().take(3);
    read_through
        .chain(single)
        .flat_map(|trace| {
            let hashed = Trace {
                name: format!("{}, std's hash state", trace.name),
                settings: trace.settings.std_hashed(),
                filling: trace.filling,
                operations: trace.operations.clone(),
                fits_a_map: false,
            };
            [trace, hashed]
        })
        .collect()
}

/// Names of the traces that are also played through the library.
pub const LIBRARY_TRACES: [&str; 5] = [
    "get hit, 10000",
    "get miss, 10000",
    "update, 10000",
    "new key into a full cache, 10000",
    ZIPF_ONE,
];

const ZIPF_ONE: &str = "Zipf 1%";

/// Returns the trace of `LIBRARY_TRACES` with this name, with `calls` calls.
pub fn library_trace(name: &str, calls: usize) -> Option<Trace> {
    if name == ZIPF_ONE {
        let settings = Settings::with_capacity(KEYS as u64 / 100);
        return Some(read_through(name, settings, &zipf_ranks(calls)));
    }
    let single = single_calls_of(10_000, calls);
    single.into_iter().find(|it| it.name == name)
}

/// Returns `entries` inserts, and then eight look-ups a key, so that the memory of the full cache is held longest.
pub fn held(settings: Settings, entries: u64) -> Trace {
    let filling = (0..entries).map(|number| operation(INSERT, number));
    let looks = (0..8 * entries).map(|call| operation(GET, call % entries));
    Trace {
        name: format!("{entries}"),
        settings,
        filling: entries as usize,
        operations: filling.chain(looks).collect(),
        fits_a_map: true,
    }
}
