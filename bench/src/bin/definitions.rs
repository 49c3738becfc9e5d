//! Compares the hits of the cache with those of its definitions, on the traces of `hits` and with the same hash: `definitions`. Prints a table of the hits of 100
//! calls, and ends with status 1 if a number of hits differs.
use mini_moka_bench::definitions::defined_hits;
use mini_moka_bench::further_traces::further_traces;
use mini_moka_bench::hit_traces::{capacities, hit_traces};
use mini_moka_bench::port;
use mini_moka_bench::rust_sides::Multiply;
use mini_moka_bench::table::{print_head, print_row};
use mini_moka_bench::traces::{look_ups, spread, Settings};
use std::hash::BuildHasher;
use std::process::ExitCode;

/// The names of the settings, in the order of `settings_of`.
const NAMES: [&str; 4] = ["default", "adaptive", "protected 80", "window 20"];

fn settings_of(capacity: u64) -> [Settings; NAMES.len()] {
    let settings = Settings::with_capacity(capacity);
    [
        settings,
        settings.adaptive(),
        settings.with_shares(1, 80),
        settings.with_shares(20, 0),
    ]
}

fn main() -> ExitCode {
    let mut differences = 0;
    let mut head = vec!["Trace", "Capacity"];
    head.extend(NAMES);
    print_head(&head);
    for trace in hit_traces().into_iter().chain(further_traces()) {
        let keys: Vec<u64> = trace.keys.iter().map(|number| spread(*number)).collect();
        let operations = look_ups(&keys);
        for capacity in capacities() {
            let mut cells = vec![trace.name.to_owned(), capacity.to_string()];
            for settings in settings_of(capacity) {
                let hits = port::play(&settings, &operations).hits;
                let defined =
                    defined_hits(&settings, &keys, |key| Multiply::default().hash_one(key));
                let percent = |hits| 100.0 * hits as f64 / keys.len() as f64;
                cells.push(format!("{:.2}", percent(hits)));
                if hits != defined {
                    differences += 1;
                    cells.push(format!("not {:.2}", percent(defined)));
                }
            }
            print_row(&cells);
        }
    }
    println!("{differences} numbers of hits differ from the definitions'");
    ExitCode::from(u8::from(differences > 0))
}
