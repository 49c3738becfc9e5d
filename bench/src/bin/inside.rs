//! Times calls inside Rattle with the default hash state: `inside TRACE [CALLS]` plays a trace once, and prints the nanoseconds a call. The benchmark of the
//! library runs it in turn with the calls from outside.
use mini_moka_bench::memory::keep_memory;
use mini_moka_bench::timing::{measure, time_port};
use mini_moka_bench::traces::{library_trace, CALLS};
use std::process::ExitCode;

fn main() -> ExitCode {
    let words: Vec<String> = std::env::args().skip(1).collect();
    let Some(name) = words.first() else {
        eprintln!("usage: inside TRACE [CALLS]");
        return ExitCode::from(2);
    };
    let calls = words.get(1).map_or(CALLS, |word| {
        word.parse().expect("the number of calls isn't a number")
    });
    let Some(mut trace) = library_trace(name, calls) else {
        eprintln!("no trace has this name: {name}");
        return ExitCode::FAILURE;
    };
    trace.settings = trace.settings.std_hashed();
    keep_memory();
    for least in measure(&trace, &[Some(time_port)], 1).into_iter().flatten() {
        println!("{}", least.a_call(&trace));
    }
    ExitCode::SUCCESS
}
