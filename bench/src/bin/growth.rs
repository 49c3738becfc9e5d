//! Measures how the time of a call grows with the number of entries: `growth FILE [REPEATS]` prints a table, and draws it into FILE as SVG.
use mini_moka_bench::chart::{Chart, Heights, Panel};
use mini_moka_bench::timing::{time_original, time_port, Player};
use mini_moka_bench::traces;
use std::process::ExitCode;

const REPEATS: usize = 3;
const ENTRIES: [u64; 4] = [10_000, 100_000, 1_000_000, 10_000_000];

/// Nanoseconds a call over the number of entries.
const CHART: Chart = Chart {
    columns: 1,
    sides: &["this cache", "mini-moka 0.10.3"],
    places: &[(1e4, "10^4"), (1e5, "10^5"), (1e6, "10^6"), (1e7, "10^7")],
    across: ("entries", true),
    heights: Heights::Up,
    upwards: ("nanoseconds a call", |nanos| format!("{nanos:.0}")),
};

fn main() -> ExitCode {
    let words: Vec<String> = std::env::args().skip(1).collect();
    let Some(file) = words.first() else {
        eprintln!("usage: growth FILE [REPEATS]");
        return ExitCode::from(2);
    };
    let repeats = words
        .get(1)
        .map_or(Ok(REPEATS), |word| word.parse())
        .expect("the number of repeats isn't a number");
    let players: [Player; 2] = [time_port, time_original];
    let mut nanos = [Vec::new(), Vec::new()];
    println!("| Entries | Port, ns a call | Original | Ratio | Hits | Original's |");
    println!("|---|---|---|---|---|---|");
    for entries in ENTRIES {
        let trace = traces::growing(entries);
        let calls = trace.operations.len() as f64;
        let mut least = [f64::INFINITY; 2];
        let mut outcomes = [None; 2];
        for _ in 0..repeats {
            for (side, player) in players.iter().enumerate() {
                let (whole, outcome) = player(&trace.settings, &trace.operations);
                least[side] = least[side].min(whole / calls);
                outcomes[side] = Some(outcome);
            }
        }
        let [port_hits, original_hits] =
            outcomes.map(|outcome| outcome.map_or(0, |outcome| outcome.hits) as f64 / calls);
        let [port, original] = least;
        println!(
            "| {entries} | {port:.1} | {original:.1} | {:.2} | {port_hits:.4} | {original_hits:.4} |",
            port / original
        );
        nanos[0].push(port);
        nanos[1].push(original);
    }
    let points = |nanos: Vec<f64>| {
        ENTRIES
            .iter()
            .map(|entries| *entries as f64)
            .zip(nanos)
            .collect()
    };
    let panel = Panel {
        title: "Look-ups that insert what they miss".into(),
        lines: nanos.map(points).into(),
    };
    if let Err(error) = std::fs::write(file, CHART.draw(&[panel])) {
        eprintln!("{file}: {error}");
        return ExitCode::FAILURE;
    }
    ExitCode::SUCCESS
}
