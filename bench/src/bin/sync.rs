//! Times whole calls of the shared cache's core beside the original's `sync`, by one caller: `sync PROGRAM [REPEATS]`. PROGRAM is the built `bench_load`, which
//! plays the core by a clock.
use mini_moka_bench::memory::keep_memory;
use mini_moka_bench::play_program::{Clocked, Kind};
use mini_moka_bench::table;
use mini_moka_bench::timing::{
    clock_nanos, measure_with_clock, time_core, time_shared_original, Player,
};
use mini_moka_bench::traces::{self, Trace};
use std::io;
use std::process::ExitCode;

const REPEATS: usize = 5;
const ENTRIES: u64 = 10_000;

/// Prints the row of a trace. Returns `true` if the core is within its capacity at the end.
fn print_trace(program: &str, trace: &Trace, repeats: usize) -> io::Result<bool> {
    let players: [Option<Player>; 2] = [Some(time_core), Some(time_shared_original)];
    let clocked = Clocked::start(program, Kind::Core, trace)?;
    let least = measure_with_clock(trace, &players, clocked, repeats)?;
    let [Some(core), Some(original), clocked] = least.as_slice() else {
        unreachable!("both sides have played");
    };
    let (nanos, by_original) = (core.a_call(trace), original.a_call(trace));
    let by_clock = clocked.map(|clocked| clocked.a_call(trace));
    let share = |hits: u64| format!("{:.4}", hits as f64 / trace.counted() as f64);
    table::print_row(&[
        trace.name.clone(),
        table::number(Some(nanos)),
        table::number(by_clock),
        table::number(Some(by_original)),
        table::ratio(nanos, by_original),
        by_clock.map_or("-".into(), |by_clock| table::ratio(by_clock, by_original)),
        share(core.outcome.hits),
        share(original.outcome.hits),
        core.outcome.entries.to_string(),
        original.outcome.entries.to_string(),
    ]);
    let all = [Some(*core), *clocked];
    let mut played = all.iter().flatten();
    Ok(played.all(|side| side.outcome.weight <= trace.settings.capacity))
}

fn print_tables(program: &str, repeats: usize) -> io::Result<bool> {
    println!(
        "Nanoseconds a call, the least of {repeats} repeats; a reading of the clock takes {:.1}. The core is given its moments, and in the column of the clock \
         reads it in each call, as the original does.",
        clock_nanos()
    );
    println!();
    table::print_head(&[
        "Trace",
        "core",
        "core, with a clock",
        "mini-moka, sync",
        "core to mini-moka",
        "with a clock to mini-moka",
        "hits, core",
        "hits, mini-moka",
        "entries, core",
        "entries, mini-moka",
    ]);
    let read_through = traces::read_through_traces().into_iter();
    let mut all_within = true;
    for trace in read_through.chain(traces::single_calls(ENTRIES)) {
        all_within &= print_trace(program, &trace, repeats)?;
    }
    Ok(all_within)
}

fn main() -> ExitCode {
    keep_memory();
    let words: Vec<String> = std::env::args().skip(1).collect();
    let Some(program) = words.first() else {
        eprintln!("usage: sync PROGRAM [REPEATS]");
        return ExitCode::from(2);
    };
    let repeats = words.get(1).map_or(REPEATS, |word| {
        word.parse().expect("the number of repeats isn't a number")
    });
    match print_tables(program, repeats) {
        Ok(true) => ExitCode::SUCCESS,
        Ok(false) => ExitCode::FAILURE,
        Err(error) => {
            eprintln!("sync: {error}");
            ExitCode::FAILURE
        }
    }
}
