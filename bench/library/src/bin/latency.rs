//! Times each call by itself: `latency FILE [CALLS]` prints percentiles of the times of inserts and hits, and draws them into FILE as SVG.
//!
//! Each side is filled with new keys twice, from nothing and with memory for all of them, and then random ones of them are looked up. Each has its default
//! hash. A time is that between two readings of the processor's counter, one of which is in it.
//!
//! Each filling is a process of its own, `latency once SIDE INITIAL CALLS`, since freed memory would be used again without the cost of its first touch.
#[path = "../../../src/chart.rs"]
mod chart;
#[path = "../sides.rs"]
mod sides;
#[allow(dead_code)]
#[path = "../../../src/table.rs"]
mod table;
#[allow(dead_code)]
#[path = "../../../src/traces.rs"]
mod traces;

use chart::{Chart, Heights, Panel};
use sides::{LruNumbers, OriginalNumbers, PackageNumbers, Side};
use std::arch::x86_64::__rdtscp;
use std::collections::HashMap;
use std::hint::black_box;
use std::process::{Command, ExitCode};
use std::time::Instant;
use traces::{spread, Random};

const CALLS: usize = 1_000_000;
/// Number of processes for each filling. The least of their times counts, since others may interrupt a call.
const REPEATS: usize = 3;

/// Shares of the calls that take at most the printed times.
const SHARES: [f64; 4] = [0.5, 0.99, 0.999, 1.0];

/// Names of the shares, at equal distances.
const NAMES: [(f64, &str); 4] = [(0.0, "p50"), (1.0, "p99"), (2.0, "p99.9"), (3.0, "longest")];

/// Name of a side, and its constructor.
type Named = (&'static str, Make);

/// Makes a cache of a capacity, with memory for a number of entries.
type Make = fn(capacity: usize, initial: usize) -> Box<dyn Side>;

const SIDES: [Named; 4] = [
    ("this cache", package),
    ("mini-moka 0.10.3", original),
    ("lru", lru),
    ("HashMap", map),
];

fn package(capacity: usize, initial: usize) -> Box<dyn Side> {
    let builder = mini_moka_proved::NumberCache::builder()
        .max_capacity(capacity as u64)
        .initial_capacity(initial);
    Box::new(PackageNumbers(
        builder.build().expect("memory is available"),
    ))
}

fn original(capacity: usize, initial: usize) -> Box<dyn Side> {
    let builder = mini_moka::unsync::Cache::builder()
        .max_capacity(capacity as u64)
        .initial_capacity(initial);
    Box::new(OriginalNumbers(builder.build()))
}

/// Makes an LRU cache. One with a capacity reserves memory for that, so one that grows has none.
fn lru(_capacity: usize, initial: usize) -> Box<dyn Side> {
    Box::new(LruNumbers(match initial {
        0 => lru::LruCache::unbounded(),
        _ => lru::LruCache::new(initial),
    }))
}

fn map(_capacity: usize, initial: usize) -> Box<dyn Side> {
    Box::new(HashMap::<u64, u64>::with_capacity(initial))
}

impl Side for HashMap<u64, u64> {
    fn get(&mut self, key: u64) -> bool {
        black_box(HashMap::get(self, &key).copied()).is_some()
    }

    fn insert(&mut self, key: u64) {
        HashMap::insert(self, key, key);
    }
}

/// Reads the processor's counter, after all earlier instructions.
fn ticks() -> u64 {
    let mut processor = 0;
    // It writes to the given place alone.
    unsafe { __rdtscp(&mut processor) }
}

/// Makes calls, and returns the nanoseconds of each share of them.
fn percentiles(calls: usize, mut call: impl FnMut(usize)) -> [f64; 4] {
    // Memory that isn't zero is touched before the first call.
    let mut times = vec![1; calls];
    let start = Instant::now();
    let first = ticks();
    let mut last = first;
    for (number, time) in times.iter_mut().enumerate() {
        call(number);
        let now = ticks();
        *time = now.saturating_sub(last);
        last = now;
    }
    let nanos = start.elapsed().as_nanos() as f64 / last.saturating_sub(first) as f64;
    times.sort_unstable();
    SHARES.map(|share| {
        let count = (share * calls as f64).ceil() as usize;
        times[count - 1] as f64 * nanos
    })
}

/// Fills a side, looks up as many keys, and prints the percentiles of both.
fn play_once(side: usize, initial: usize, calls: usize) {
    let mut cache = SIDES[side].1(2 * calls, initial);
    let inserts = percentiles(calls, |number| cache.insert(spread(number as u64)));
    let mut random = Random(2);
    let mut hits = 0;
    let gets = percentiles(calls, |_| {
        hits += usize::from(cache.get(spread(random.below(calls as u64))));
    });
    assert_eq!(hits, calls, "a key of the filling is missing");
    for nanos in inserts.into_iter().chain(gets) {
        println!("{nanos}");
    }
}

/// Returns the least times of the processes that fill a side: of its inserts, and of its hits.
fn least(side: usize, initial: usize, calls: usize) -> [[f64; 4]; 2] {
    let mut least = [[f64::INFINITY; 4]; 2];
    for _ in 0..REPEATS {
        let program = std::env::current_exe().expect("the path of this program is unknown");
        let output = Command::new(program)
            .arg("once")
            .args([side, initial, calls].map(|number| number.to_string()))
            .output()
            .expect("a play can't be started");
        assert!(output.status.success(), "a play failed");
        let words = String::from_utf8_lossy(&output.stdout).into_owned();
        for (least, word) in least.iter_mut().flatten().zip(words.split_whitespace()) {
            *least = least.min(word.parse().expect("a play prints numbers"));
        }
    }
    least
}

/// Formats a time with its unit.
fn time(nanos: f64) -> String {
    match nanos {
        0.0..1e4 => format!("{nanos:.0} ns"),
        1e4..1e6 => format!("{:.1} µs", nanos / 1e3),
        _ => format!("{:.1} ms", nanos / 1e6),
    }
}

/// Formats a power of ten on the axis.
fn power(nanos: f64) -> String {
    match nanos {
        0.0..900.0 => format!("{nanos:.0} ns"),
        900.0..9e5 => format!("{:.0} µs", nanos / 1e3),
        9e5..9e8 => format!("{:.0} ms", nanos / 1e6),
        _ => format!("{:.0} s", nanos / 1e9),
    }
}

/// A kind of calls, and the times of each side.
struct Part {
    name: String,
    rows: Vec<[f64; 4]>,
}

/// Times all sides, one after the other.
fn measured(calls: usize) -> [Part; 3] {
    let mut parts =
        ["inserts, growing", "inserts, with initial capacity", "hits"].map(|name| Part {
            name: format!("{calls} {name}"),
            rows: Vec::new(),
        });
    for side in 0..SIDES.len() {
        let [grown, _] = least(side, 0, calls);
        let [reserved, hits] = least(side, calls, calls);
        for (part, row) in parts.iter_mut().zip([grown, reserved, hits]) {
            part.rows.push(row);
        }
    }
    parts
}

fn print_table(parts: &[Part]) {
    let mut head = vec!["Calls", "Side"];
    head.extend(NAMES.map(|name| name.1));
    table::print_head(&head);
    for part in parts {
        for ((side, _), row) in SIDES.iter().zip(&part.rows) {
            let mut cells = vec![part.name.clone(), side.to_string()];
            cells.extend(row.map(time));
            table::print_row(&cells);
        }
    }
}

fn drawn(parts: [Part; 3]) -> String {
    let line = |row: &[f64; 4]| NAMES.iter().map(|name| name.0).zip(*row).collect();
    let panels = parts.map(|part| Panel {
        title: part.name,
        lines: part.rows.iter().map(line).collect(),
    });
    let chart = Chart {
        columns: 3,
        sides: &SIDES.map(|side| side.0),
        places: &NAMES,
        across: ("share of the calls", false),
        heights: Heights::Powers,
        upwards: ("time of a call", power),
    };
    chart.draw(&panels)
}

fn print_and_draw(file: &str, calls: usize) -> ExitCode {
    let [clock, ..] = percentiles(calls, |_| {});
    println!(
        "Time of a call, with one reading of the clock, which takes {}; the least of {REPEATS} processes.\n",
        time(clock)
    );
    let parts = measured(calls);
    print_table(&parts);
    if let Err(error) = std::fs::write(file, drawn(parts)) {
        eprintln!("{file}: {error}");
        return ExitCode::FAILURE;
    }
    ExitCode::SUCCESS
}

fn number(word: &str) -> usize {
    word.parse().expect("an argument isn't a number")
}

fn main() -> ExitCode {
    let words: Vec<String> = std::env::args().skip(1).collect();
    match words.iter().map(String::as_str).collect::<Vec<_>>()[..] {
        ["once", side, initial, calls] => {
            play_once(number(side), number(initial), number(calls));
            ExitCode::SUCCESS
        }
        [file] => print_and_draw(file, CALLS),
        [file, calls] if number(calls) > 0 => print_and_draw(file, number(calls)),
        _ => {
            eprintln!("usage: latency FILE [CALLS]");
            ExitCode::from(2)
        }
    }
}
