//! Hits of this cache as `moka_sim` counts them, the program of this repository that plays traces on the library for C and Rust.
use std::collections::HashMap;
use std::io::Write;
use std::process::{Command, Stdio};

/// Plays the keys on a cache for each capacity and each of its settings' names, and returns the hits by capacity and name.
pub fn simulated_hits(
    program: &str,
    keys: &[u64],
    capacities: &[u64],
    settings: &[&str],
) -> HashMap<(u64, String), u64> {
    let capacities: Vec<String> = capacities.iter().map(u64::to_string).collect();
    let mut moka_sim = Command::new(program)
        .args(["--format", "lines", "--output", "csv"])
        .args(["--capacity", &capacities.join(",")])
        .args(["--settings", &settings.join(",")])
        .stdin(Stdio::piped())
        .stdout(Stdio::piped())
        .stderr(Stdio::piped())
        .spawn()
        .unwrap_or_else(|error| panic!("{program} can't be started: {error}"));
    let lines: String = keys.iter().map(|key| format!("{key}\n")).collect();
    let mut input = moka_sim.stdin.take().expect("moka_sim has an input");
    let is_read = input.write_all(lines.as_bytes());
    drop(input);
    let output = moka_sim.wait_with_output().expect("moka_sim ends");
    let said = String::from_utf8_lossy(&output.stderr);
    assert!(output.status.success(), "moka_sim failed: {said}");
    is_read.expect("moka_sim reads the trace");
    table(&String::from_utf8_lossy(&output.stdout))
}

/// Reads the hits from a table in CSV.
fn table(csv: &str) -> HashMap<(u64, String), u64> {
    let mut lines = csv.lines().map(|line| line.split(',').collect::<Vec<_>>());
    let head = lines.next().expect("the table has a head");
    let column = |name| {
        let at = head.iter().position(|column| *column == name);
        at.unwrap_or_else(|| panic!("the table has no column {name}"))
    };
    let (capacity, settings, hits) = (column("capacity"), column("settings"), column("hits"));
    let number = |text: &str| text.parse().expect("the table has numbers");
    lines
        .map(|row| {
            let key = (number(row[capacity]), row[settings].to_owned());
            (key, number(row[hits]))
        })
        .collect()
}
