//! Plays one trace on one side, for a profiler: `one SIDE TRACE [TIMES]`.
//!
//! The sides `port`, `protected` and `adaptive` are this repository's cache: with the default shares, with 80 for protected entries, and with a window that adapts,
//! which has that 80 too. `original` and `sync` are mini-moka's two caches, and `core` is the core of the shared cache.
use mini_moka_bench::{port, rust_sides, traces};

fn main() {
    let words: Vec<String> = std::env::args().collect();
    let [_, side, name, times @ ..] = words.as_slice() else {
        panic!("usage: one SIDE TRACE [TIMES]");
    };
    let times = times.first().map_or(1, |word| {
        word.parse().expect("the number of times isn't a number")
    });
    // The name of a trace of single calls ends with its number of entries.
    let entries = name.rsplit(", ").next().and_then(|word| word.parse().ok());
    let all = match entries {
        Some(entries) => traces::single_calls(entries),
        None => traces::read_through_traces(),
    };
    let trace = all
        .into_iter()
        .find(|trace| trace.name == *name)
        .expect("no trace has this name");
    for _ in 0..times {
        let outcome = match side.as_str() {
            "port" => port::play(&trace.settings, &trace.operations),
            "protected" => port::play(&trace.settings.with_shares(1, 80), &trace.operations),
            "adaptive" => port::play(&trace.settings.adaptive(), &trace.operations),
            "original" => {
                let mut cache = rust_sides::original(&trace.settings);
                rust_sides::play(&mut cache, &trace.operations)
            }
            "core" => port::play_core(&trace.settings, &trace.operations),
            "sync" => {
                let mut cache = rust_sides::shared_original(&trace.settings);
                rust_sides::play(&mut cache, &trace.operations)
            }
            _ => panic!("the sides are port, protected, adaptive, original, core and sync"),
        };
        println!("{outcome:?}");
    }
}
