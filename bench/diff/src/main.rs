//! Compares the port with the original, or with the model, on random scripts: `moka_diff PROGRAM MODEL NUMBER_OF_SCRIPTS SEED`.
mod compare;
mod keys;
mod make;
mod original;
mod panics;
mod program;
mod random;
mod rules;
mod script;
mod shrink;
mod sketch;
mod special;
mod tally;

use crate::compare::{outcome, Difference, Sides};
use crate::program::Program;
use crate::tally::{Found, Tally};
use std::path::Path;
use std::process::ExitCode;
use std::sync::atomic::{AtomicU64, Ordering};
use std::sync::Mutex;

/// Number of scripts that run at a time.
const WORKERS: usize = 2;
/// Maximum number of differences that are shrunk and printed, those on the earliest lines first. The others are only counted.
const PRINTED: usize = 5;

fn main() -> ExitCode {
    let words: Vec<String> = std::env::args().skip(1).collect();
    let Some((sides, scripts, seed)) = arguments(&words) else {
        eprintln!("usage: moka_diff PROGRAM MODEL NUMBER_OF_SCRIPTS SEED");
        return ExitCode::from(2);
    };
    panics::keep_panics();
    println!("seed                    {seed}");
    let work = Work::new(sides, scripts, seed);
    std::thread::scope(|scope| {
        for _ in 0..WORKERS {
            scope.spawn(|| work.run());
        }
    });
    work.print()
}

fn arguments(words: &[String]) -> Option<(Sides, u64, u64)> {
    let [program, model, scripts, seed] = words else {
        return None;
    };
    let sides = Sides {
        port: Program::port(Path::new(program)),
        model: Program::model(Path::new(model)),
    };
    Some((sides, scripts.parse().ok()?, seed.parse().ok()?))
}

/// The scripts, and their results so far.
struct Work {
    sides: Sides,
    scripts: u64,
    seed: u64,
    next: AtomicU64,
    tally: Mutex<Tally>,
    /// The unexplained differences, each with the number of its script.
    found: Mutex<Vec<(u64, Difference)>>,
}

impl Work {
    fn new(sides: Sides, scripts: u64, seed: u64) -> Work {
        Work {
            sides,
            scripts,
            seed,
            next: AtomicU64::new(0),
            tally: Mutex::default(),
            found: Mutex::default(),
        }
    }

    /// Runs one script after another until none is left.
    fn run(&self) {
        let mut tally = Tally::default();
        loop {
            let number = self.next.fetch_add(1, Ordering::Relaxed);
            if number >= self.scripts {
                break;
            }
            self.run_script(number, &mut tally);
        }
        self.tally.lock().expect("no worker panics").merge(&tally);
    }

    fn run_script(&self, number: u64, tally: &mut Tally) {
        let script = make::script(self.seed, number);
        let outcome = outcome(&script, &self.sides);
        tally.add(&outcome);
        if let Some(difference) = outcome.difference {
            self.found.lock().expect("no worker panics").push((number, difference));
        }
    }

    /// Prints the totals and the differences. The status is 1 if there are differences.
    fn print(self) -> ExitCode {
        self.tally.lock().expect("no worker panics").print();
        let mut found = self.found.lock().expect("no worker panics").clone();
        println!("unexplained differences {}", found.len());
        found.sort_by_key(|(number, difference)| (difference.line, *number));
        for (number, difference) in found.iter().take(PRINTED) {
            self.shrunk(*number, difference).print();
        }
        if found.is_empty() {
            ExitCode::SUCCESS
        } else {
            ExitCode::FAILURE
        }
    }

    fn shrunk(&self, number: u64, difference: &Difference) -> Found {
        let script = make::script(self.seed, number);
        let (script, difference) = shrink::shrunk(&script, difference, &self.sides);
        Found {
            number,
            script,
            difference,
        }
    }
}
