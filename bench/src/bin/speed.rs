//! Times calls on each side: `speed PROGRAM [PART] [REPEATS]`. PROGRAM is the built `bench_load`, which plays traces with durations by a clock. PART is `zipf`,
//! `single`, `hashers`, or `all` for the first two.
use mini_moka_bench::memory::keep_memory;
use mini_moka_bench::play_program::{Clocked, Kind};
use mini_moka_bench::port::Outcome;
use mini_moka_bench::rust_sides;
use mini_moka_bench::table;
use mini_moka_bench::timing::{
    clock_nanos, measure_with_clock, time_original, time_port, time_side, Player,
};
use mini_moka_bench::traces::{self, Operation, Settings, Trace};
use std::io;
use std::process::ExitCode;

const REPEATS: usize = 5;
const ENTRIES: [u64; 2] = [10_000, 1_000_000];

fn time_lru(settings: &Settings, operations: &[Operation]) -> (f64, Outcome) {
    time_side(rust_sides::lru_cache(settings), operations)
}

fn time_map(settings: &Settings, operations: &[Operation]) -> (f64, Outcome) {
    time_side(rust_sides::map(settings), operations)
}

/// Prints the row of a trace. The original has no window, so its hits may differ.
fn print_trace(program: &str, trace: &Trace, repeats: usize) -> io::Result<()> {
    let settings = &trace.settings;
    let is_plain = !settings.is_weighed && !settings.has_durations() && !settings.is_std_hashed;
    let players: [Option<Player>; 4] = [
        Some(time_port),
        Some(time_original),
        is_plain.then_some(time_lru as Player),
        trace.fits_a_map.then_some(time_map as Player),
    ];
    // Without durations the original reads no clock.
    let clocked = match settings.has_durations() {
        true => Clocked::start(program, Kind::Alone, trace)?,
        false => None,
    };
    let least = measure_with_clock(trace, &players, clocked, repeats)?;
    let nanos: Vec<Option<f64>> = least
        .iter()
        .map(|least| least.map(|least| least.a_call(trace)))
        .collect();
    let ratio = |side: Option<f64>| match (side, nanos[1]) {
        (Some(side), Some(original)) => table::ratio(side, original),
        _ => "-".into(),
    };
    let outcome = |at: usize| least[at].map_or(Outcome::default(), |least| least.outcome);
    let (port, original) = (outcome(0), outcome(1));
    let share = |outcome: Outcome| format!("{:.4}", outcome.hits as f64 / trace.counted() as f64);
    table::print_row(&[
        trace.name.clone(),
        table::number(nanos[0]),
        table::number(nanos[4]),
        table::number(nanos[1]),
        table::number(nanos[2]),
        table::number(nanos[3]),
        ratio(nanos[0]),
        ratio(nanos[4]),
        share(port),
        share(original),
        least[2].map_or("-".into(), |least| share(least.outcome)),
        format!("{} and {}", port.entries, original.entries),
    ]);
    Ok(())
}

fn print_tables(program: &str, part: &str, repeats: usize) -> io::Result<()> {
    println!(
        "Nanoseconds a call, the least of {repeats} repeats; a reading of the clock takes {:.1}. The port is given its moments, and in the column of the clock \
         reads it in each call, as the original does if a duration is set.",
        clock_nanos()
    );
    println!();
    table::print_head(&[
        "Trace",
        "port",
        "port, with a clock",
        "mini-moka",
        "lru",
        "map",
        "port to mini-moka",
        "with a clock to mini-moka",
        "hits, port",
        "hits, mini-moka",
        "hits, lru",
        "entries at the end",
    ]);
    if part == "zipf" || part == "all" {
        for trace in traces::read_through_traces() {
            print_trace(program, &trace, repeats)?;
        }
    }
    if part == "single" || part == "all" {
        for entries in ENTRIES {
            for trace in traces::single_calls(entries) {
                print_trace(program, &trace, repeats)?;
            }
        }
    }
    if part == "hashers" {
        for trace in traces::std_hashed_traces() {
            print_trace(program, &trace, repeats)?;
        }
    }
    Ok(())
}

fn main() -> ExitCode {
    keep_memory();
    let words: Vec<String> = std::env::args().skip(1).collect();
    let part = words.get(1).map_or("all", String::as_str);
    let (Some(program), true) = (
        words.first(),
        ["all", "zipf", "single", "hashers"].contains(&part),
    ) else {
        eprintln!("usage: speed PROGRAM [zipf|single|hashers|all] [REPEATS]");
        return ExitCode::from(2);
    };
    let repeats = words.get(2).map_or(REPEATS, |word| {
        word.parse().expect("the number of repeats isn't a number")
    });
    if let Err(error) = print_tables(program, part, repeats) {
        eprintln!("speed: {error}");
        return ExitCode::FAILURE;
    }
    ExitCode::SUCCESS
}
