//! Times the operations of a part of the cache beside others: `parts PART [REPEATS]`, with PART `sketch`, `list` or `index`. If `valgrind` is
//! installed, the table also has instructions.
//! `parts once PART LOAD SIDE ROUNDS` plays one side for a profiler. LOAD and SIDE are numbers from 0 on.
use mini_moka_bench::callgrind::collected;
use mini_moka_bench::loads::{loads_of, Load, Side};
use mini_moka_bench::memory::keep_memory;
use mini_moka_bench::table;
use std::hint::black_box;
use std::process::ExitCode;
use std::time::Instant;

const REPEATS: usize = 9;
/// Number of timed rounds. The least time of one round is subtracted, so neither making a part nor the first touch of its memory counts.
const ROUNDS: usize = 5;

fn main() -> ExitCode {
    let words: Vec<String> = std::env::args().skip(1).collect();
    let words: Vec<&str> = words.iter().map(String::as_str).collect();
    match words.as_slice() {
        ["once", part, load, side, rounds] => {
            let loads = loads_of(part).expect("no part has this name");
            let side = &loads[number(load)].sides[number(side)];
            println!("{}", (side.play)(number(rounds)));
            ExitCode::SUCCESS
        }
        [part, repeats @ ..] => match loads_of(part) {
            Some(loads) => {
                keep_memory();
                print_part(
                    part,
                    &loads,
                    repeats.first().map_or(REPEATS, |word| number(word)),
                )
            }
            None => usage(),
        },
        [] => usage(),
    }
}

fn usage() -> ExitCode {
    eprintln!("usage: parts sketch|list|index [REPEATS]");
    ExitCode::from(2)
}

fn number(word: &str) -> usize {
    word.parse().expect("an argument isn't a number")
}

/// Least and greatest time of the repeats, in nanoseconds.
#[derive(Clone, Copy)]
struct Spread {
    least: f64,
    greatest: f64,
}

fn print_part(part: &str, loads: &[Load], repeats: usize) -> ExitCode {
    println!(
        "Nanoseconds an operation, the least and the greatest of {repeats} repeats; ratios of the least; instructions by callgrind."
    );
    let mut all_same = true;
    for (at, load) in loads.iter().enumerate() {
        if at == 0 || names_of(load) != names_of(&loads[at - 1]) {
            println!();
            print_head_of(&names_of(load));
        }
        all_same &= print_load(part, at, load, repeats);
    }
    if all_same {
        ExitCode::SUCCESS
    } else {
        ExitCode::FAILURE
    }
}

fn names_of(load: &Load) -> Vec<&'static str> {
    load.sides.iter().map(|side| side.name).collect()
}

/// Prints the head of a table for loads with these sides.
fn print_head_of(names: &[&str]) {
    let mut head = vec!["Load".to_string()];
    head.extend(names.iter().map(|name| name.to_string()));
    head.extend(
        names[1..]
            .iter()
            .map(|name| format!("{} to {name}", names[0])),
    );
    head.extend(names.iter().map(|name| format!("{name}, instructions")));
    head.push("sums".into());
    table::print_head(&head.iter().map(String::as_str).collect::<Vec<_>>());
}

/// Prints the row of a load. Returns `true` if all sides had the same sum.
fn print_load(part: &str, at: usize, load: &Load, repeats: usize) -> bool {
    let spreads = measure(load, repeats);
    let sums: Vec<u64> = load.sides.iter().map(|side| (side.play)(2)).collect();
    let is_same = sums.iter().all(|sum| *sum == sums[0]);
    let mut cells = vec![load.name.clone()];
    cells.extend(
        spreads
            .iter()
            .map(|spread| format!("{:.1} to {:.1}", spread.least, spread.greatest)),
    );
    cells.extend(
        spreads[1..]
            .iter()
            .map(|other| table::ratio(spreads[0].least, other.least)),
    );
    cells.extend((0..load.sides.len()).map(|side| {
        table::number(instructions(part, at, side).map(|count| count / load.operations as f64))
    }));
    cells.push(match is_same {
        true => "the same".into(),
        false => format!("{sums:?}"),
    });
    table::print_row(&cells);
    is_same
}

/// Times the sides in turn, repeat by repeat. Subtracts the least time of one round.
fn measure(load: &Load, repeats: usize) -> Vec<Spread> {
    let none = Spread {
        least: f64::INFINITY,
        greatest: 0.0,
    };
    let mut wholes = vec![none; load.sides.len()];
    let mut ones = vec![f64::INFINITY; load.sides.len()];
    for _ in 0..repeats {
        for (at, side) in load.sides.iter().enumerate() {
            let whole = nanos_of(side, ROUNDS);
            wholes[at].least = wholes[at].least.min(whole);
            wholes[at].greatest = wholes[at].greatest.max(whole);
            ones[at] = ones[at].min(nanos_of(side, 1));
        }
    }
    let counted = ((ROUNDS - 1) * load.operations) as f64;
    wholes
        .iter()
        .zip(ones)
        .map(|(whole, one)| Spread {
            least: (whole.least - one) / counted,
            greatest: (whole.greatest - one) / counted,
        })
        .collect()
}

fn nanos_of(side: &Side, rounds: usize) -> f64 {
    let start = Instant::now();
    black_box((side.play)(rounds));
    start.elapsed().as_nanos() as f64
}

/// Counts the instructions of a round: those of two rounds, less those of one.
fn instructions(part: &str, load: usize, side: usize) -> Option<f64> {
    Some(played(part, load, side, 2)? - played(part, load, side, 1)?)
}

/// Counts the instructions of this program while it plays one side.
fn played(part: &str, load: usize, side: usize, rounds: usize) -> Option<f64> {
    let program = std::env::current_exe().ok()?;
    let numbers = [load, side, rounds].map(|number| number.to_string());
    let [load, side, rounds] = &numbers;
    collected(&program, &["once", part, load, side, rounds], None)
}
