//! Measures hit ratios over capacities: `hits FILE SIMULATOR [CAFFEINE.jar]` prints a table, and draws some of the traces into FILE as SVG.
//!
//! SIMULATOR is the program moka_sim, which plays the traces on this cache. The best possible cache is Belady's, which knows all later calls.
use mini_moka_bench::caffeine_model::model_hits;
use mini_moka_bench::chart::{Chart, Heights, Panel};
use mini_moka_bench::further_traces::further_traces;
use mini_moka_bench::hit_traces::{capacities, hit_traces};
use mini_moka_bench::rust_sides::{lru_cache, original, play, Multiply};
use mini_moka_bench::simulator::simulated_hits;
use mini_moka_bench::table::{print_head, print_row};
use mini_moka_bench::traces::{look_ups, spread, Settings};
use std::collections::{BTreeMap, HashMap, HashSet, VecDeque};
use std::hash::BuildHasher;
use std::io::Write;
use std::process::{Command, ExitCode, Stdio};

/// Names of the capacities, in percent of the keys.
const CAPACITIES: [(f64, &str); 5] = [
    (0.1, "0.1%"),
    (0.5, "0.5%"),
    (1.0, "1%"),
    (5.0, "5%"),
    (10.0, "10%"),
];

/// The traces that are drawn.
const TRACES: [&str; 8] = [
    "Zipf 0.8",
    "Zipf 0.99",
    "loop",
    "scan mix",
    "drifting hot set",
    "asked soon again",
    "phases",
    "churn",
];

/// The sides that are drawn, as hits below the best possible.
const DRAWN: [&str; 4] = ["adaptive", "default", "mini-moka 0.10.3", "lru"];

const CHART: Chart = Chart {
    columns: 2,
    sides: &DRAWN,
    places: &CAPACITIES,
    across: ("capacity", true),
    heights: Heights::Down,
    upwards: ("hits of 100 below the best possible", |below| match below {
        0.0 => "0".into(),
        _ => format!("\u{2212}{below}"),
    }),
};

/// The settings of this cache, by their names in moka_sim.
const SETTINGS: [&str; 5] = ["default", "adaptive", "segments", "protected80", "window20"];

const SIDES: [&str; 11] = [
    "best possible",
    "default",
    "adaptive",
    "segments",
    "protected 80",
    "window 20",
    "mini-moka 0.10.3",
    "Caffeine",
    "model of Caffeine 3",
    "lru",
    "first in, first out",
];

/// Counts the hits of the best possible cache. It evicts the key whose next call is latest or never comes, which may be the new key.
fn best_hits(keys: &[u64], capacity: usize) -> u64 {
    let mut next = vec![usize::MAX; keys.len()];
    let mut seen = HashMap::new();
    for (call, key) in keys.iter().enumerate().rev() {
        // A key that never recurs gets a number of its own, above those of all calls.
        next[call] = seen.insert(*key, call).unwrap_or(keys.len() + call);
    }
    let mut held = HashSet::new();
    let mut by_next = BTreeMap::new();
    let mut hits = 0;
    for (call, key) in keys.iter().enumerate() {
        if held.insert(*key) {
            by_next.insert(next[call], *key);
        } else {
            hits += 1;
            by_next.remove(&call);
            by_next.insert(next[call], *key);
        }
        if held.len() > capacity {
            if let Some((_, latest)) = by_next.pop_last() {
                held.remove(&latest);
            }
        }
    }
    hits
}

fn fifo_hits(keys: &[u64], capacity: usize) -> u64 {
    let mut held = HashSet::new();
    let mut order = VecDeque::new();
    let mut hits = 0;
    for key in keys {
        if !held.insert(*key) {
            hits += 1;
            continue;
        }
        order.push_back(*key);
        if order.len() > capacity {
            if let Some(first) = order.pop_front() {
                held.remove(&first);
            }
        }
    }
    hits
}

/// Counts Caffeine's hits at each capacity, by `java` with this jar.
fn caffeine_hits(jar: &str, keys: &[u64], capacities: &[u64]) -> Vec<u64> {
    let program = concat!(env!("CARGO_MANIFEST_DIR"), "/caffeine/Hits.java");
    let mut java = Command::new("java")
        .args(["-cp", jar, program])
        .args(capacities.iter().map(u64::to_string))
        .stdin(Stdio::piped())
        .stdout(Stdio::piped())
        .spawn()
        .expect("java can't be started");
    let bytes: Vec<u8> = keys.iter().flat_map(|key| key.to_le_bytes()).collect();
    let mut input = java.stdin.take().expect("java has an input");
    input.write_all(&bytes).expect("java reads the trace");
    drop(input);
    let output = java.wait_with_output().expect("java ends");
    assert!(output.status.success(), "java failed");
    String::from_utf8_lossy(&output.stdout)
        .lines()
        .map(|line| line.parse().expect("java prints numbers"))
        .collect()
}

/// Counts the hits of each side at a capacity. Those of this cache, by setting, and those of Caffeine are passed in.
fn hits_at(
    keys: &[u64],
    capacity: u64,
    ours: [u64; SETTINGS.len()],
    caffeine: Option<u64>,
) -> [Option<u64>; SIDES.len()] {
    let settings = Settings::with_capacity(capacity);
    let operations = look_ups(keys);
    let [default, adaptive, segments, protected, window] = ours.map(Some);
    [
        Some(best_hits(keys, capacity as usize)),
        default,
        adaptive,
        segments,
        protected,
        window,
        Some(play(&mut original(&settings), &operations).hits),
        caffeine,
        Some(model_hits(keys, capacity, |key| {
            Multiply::default().hash_one(key)
        })),
        Some(play(&mut lru_cache(&settings), &operations).hits),
        Some(fifo_hits(keys, capacity as usize)),
    ]
}

/// Returns the panel of a trace. The best possible cache is the first of the sides.
fn below_best(name: &str, ratios: &[Vec<f64>]) -> Panel {
    let line = |side: &&str| {
        let number = SIDES.iter().position(|each| each == side);
        let hits = &ratios[number.expect("a drawn side is one of the sides")];
        let below = ratios[0].iter().zip(hits).map(|(best, hits)| best - hits);
        CAPACITIES.iter().map(|place| place.0).zip(below).collect()
    };
    Panel {
        title: name.into(),
        lines: DRAWN.iter().map(line).collect(),
    }
}

fn main() -> ExitCode {
    let words: Vec<String> = std::env::args().skip(1).collect();
    let [file, simulator, jar @ ..] = words.as_slice() else {
        eprintln!("usage: hits FILE SIMULATOR [CAFFEINE.jar]");
        return ExitCode::from(2);
    };
    let capacities = capacities();
    let mut head = vec!["Trace", "Capacity"];
    head.extend(SIDES);
    print_head(&head);
    let mut panels = Vec::new();
    for trace in hit_traces().into_iter().chain(further_traces()) {
        let keys: Vec<u64> = trace.keys.iter().map(|number| spread(*number)).collect();
        let simulated = simulated_hits(simulator, &keys, &capacities, &SETTINGS);
        let caffeine = jar
            .first()
            .map(|jar| caffeine_hits(jar, &keys, &capacities));
        let mut ratios = vec![Vec::new(); SIDES.len()];
        for (index, capacity) in capacities.iter().enumerate() {
            let of_caffeine = caffeine.as_ref().map(|hits| hits[index]);
            let ours = SETTINGS.map(|setting| simulated[&(*capacity, setting.to_owned())]);
            let percents: Vec<Option<f64>> = hits_at(&keys, *capacity, ours, of_caffeine)
                .into_iter()
                .map(|hits| hits.map(|hits| 100.0 * hits as f64 / keys.len() as f64))
                .collect();
            let mut cells = vec![trace.name.to_string(), CAPACITIES[index].1.to_string()];
            for (side, percent) in percents.iter().enumerate() {
                cells.push(percent.map_or("-".into(), |percent| format!("{percent:.1}")));
                ratios[side].extend(percent);
            }
            print_row(&cells);
        }
        if TRACES.contains(&trace.name) {
            panels.push(below_best(trace.name, &ratios));
        }
    }
    if let Err(error) = std::fs::write(file, CHART.draw(&panels)) {
        eprintln!("{file}: {error}");
        return ExitCode::FAILURE;
    }
    ExitCode::SUCCESS
}
