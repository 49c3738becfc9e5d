//! Counts the instructions of a call by callgrind: `instructions` prints a table of three caches. Those of the filling are subtracted.
//! `instructions once CACHE TRACE CALLS` plays a trace, for callgrind. CACHE and TRACE are numbers from 0 on.
use mini_moka_bench::callgrind::collected;
use mini_moka_bench::port;
use mini_moka_bench::table;
use mini_moka_bench::traces::{single_calls_of, zipf_one_percent, Settings, Trace};
use std::process::ExitCode;

/// Entries and calls of single calls.
const ENTRIES: u64 = 10_000;
const CALLS: usize = 10_000;
/// Entries and calls of the trace that reads through, from an empty cache on.
const ZIPF_ENTRIES: u64 = 2_000;
const ZIPF_CALLS: usize = 40_000;

/// Name of a cache, and its settings from the default ones.
type Cache = (&'static str, fn(Settings) -> Settings);

const CACHES: [Cache; 3] = [
    ("default", |settings| settings),
    ("protected 80", |settings| settings.with_shares(1, 80)),
    ("adaptive", Settings::adaptive),
];

/// Returns the traces of the table.
fn traces() -> Vec<Trace> {
    let mut traces = single_calls_of(ENTRIES, CALLS);
    traces.push(zipf_one_percent(ZIPF_ENTRIES, ZIPF_CALLS));
    traces
}

fn number(word: &str) -> usize {
    word.parse().expect("an argument isn't a number")
}

/// Plays the filling of a trace and its first calls on a cache. The list has all calls, so memory for the filling comes from the same places.
fn play(cache: usize, trace: usize, calls: usize) {
    let trace = traces().swap_remove(trace);
    let settings = CACHES[cache].1(trace.settings);
    let operations = &trace.operations[..trace.filling + calls];
    println!("{:?}", port::play(&settings, operations));
}

/// Counts the instructions of a call.
fn instructions(cache: usize, trace: usize, calls: usize) -> Option<f64> {
    let program = std::env::current_exe().ok()?;
    let of = |calls: usize| {
        let [cache, trace, calls] = [cache, trace, calls].map(|number| number.to_string());
        let words = ["once", &cache, &trace, &calls];
        collected(&program, &words, Some("bench_trace_play"))
    };
    Some((of(calls)? - of(0)?) / calls as f64)
}

/// Prints the table. Returns `None` if callgrind doesn't count.
fn print_table() -> Option<()> {
    println!("Instructions a call by callgrind, without those of the filling.\n");
    let mut head = vec!["Trace"];
    head.extend(CACHES.map(|(name, _)| name));
    table::print_head(&head);
    for (at, trace) in traces().iter().enumerate() {
        let mut cells = vec![trace.name.clone()];
        for cache in 0..CACHES.len() {
            let count = instructions(cache, at, trace.counted())?;
            cells.push(table::number(Some(count)));
        }
        table::print_row(&cells);
    }
    Some(())
}

fn main() -> ExitCode {
    let words: Vec<String> = std::env::args().skip(1).collect();
    match words.iter().map(String::as_str).collect::<Vec<_>>()[..] {
        ["once", cache, trace, calls] => play(number(cache), number(trace), number(calls)),
        [] => {
            if print_table().is_none() {
                eprintln!("instructions: valgrind isn't installed, or fails");
                return ExitCode::FAILURE;
            }
        }
        _ => {
            eprintln!("usage: instructions");
            return ExitCode::from(2);
        }
    }
    ExitCode::SUCCESS
}
