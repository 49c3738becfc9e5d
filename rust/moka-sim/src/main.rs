//! The program `moka_sim`: `--help` says what it does.

use moka_sim::advice::sentence;
use moka_sim::args::{parse, Command, Options, Output};
use moka_sim::charts::draw;
use moka_sim::make::{self, MakeError};
use moka_sim::numbers::grouped;
use moka_sim::play::{play_all, Failure, Play};
use moka_sim::policies::Rules;
use moka_sim::reader::{read, ReadError};
use moka_sim::report::Report;
use moka_sim::trace::Trace;
use std::cell::Cell;
use std::fmt;
use std::fs::{self, File};
use std::io::{self, BufReader, BufWriter, IsTerminal, Write};
use std::process::ExitCode;
use std::time::{Duration, Instant};

const HELP: &str = include_str!("help.txt");
const USAGE: &str =
    "usage: ./moka_sim [OPTIONS] [TRACE], or ./moka_sim make KIND [COUNT]; --help says more";

/// The error of a run whose arguments are right.
enum RunError {
    Open { name: String, error: io::Error },
    Read(ReadError),
    Play(Failure),
    Write { name: String, error: io::Error },
    Make,
}

impl fmt::Display for RunError {
    fn fmt(&self, f: &mut fmt::Formatter<'_>) -> fmt::Result {
        match self {
            RunError::Open { name, error } => write!(f, "can't open {name}: {error}"),
            RunError::Read(error) => error.fmt(f),
            RunError::Play(failure) => failure.fmt(f),
            RunError::Write { name, error } => write!(f, "can't write {name}: {error}"),
            RunError::Make => f.write_str("there is no memory for so long a trace"),
        }
    }
}

fn main() -> ExitCode {
    let arguments = std::env::args_os()
        .skip(1)
        .map(|argument| argument.to_string_lossy().into_owned());
    let result = match parse(&arguments.collect::<Vec<_>>()) {
        Ok(Command::Help) => print(HELP),
        Ok(Command::Make {
            kind,
            count,
            seed,
            is_csv,
        }) => {
            let mut out = BufWriter::new(io::stdout().lock());
            match make::write(kind, count, seed, is_csv, &mut out) {
                Ok(()) => Ok(()),
                Err(MakeError::OutOfMemory) => Err(RunError::Make),
                Err(MakeError::Io(error)) => written(Err(error)),
            }
        }
        Ok(Command::Play(options)) => run(&options),
        Err(wrong) => {
            eprintln!("moka_sim: {wrong}\n{USAGE}");
            return ExitCode::from(2);
        }
    };
    match result {
        Ok(()) => ExitCode::SUCCESS,
        Err(error) => {
            eprintln!("moka_sim: {error}");
            ExitCode::FAILURE
        }
    }
}

fn run(options: &Options) -> Result<(), RunError> {
    let progress = Progress::new();
    let trace = load(options, &progress)?;
    let is_weighed = trace.sizes.is_some() && !options.counts_entries;
    let plays = plays(options, &trace, is_weighed)?;
    let all = plays.len() as u64 * trace.len() as u64;
    let outcomes = play_all(&trace, &plays, options.jobs, |done| {
        progress.show(|| format!("playing on {} caches: {}%", plays.len(), 100 * done / all));
    });
    progress.clear();
    let outcomes = outcomes.map_err(RunError::Play)?;
    let report = Report::new(&trace, is_weighed, options.time_to_live, &outcomes);
    if let Some(file) = &options.svg {
        let picture = draw(&report, options.file.as_deref().unwrap_or("standard input"));
        fs::write(file, picture).map_err(|error| RunError::Write {
            name: file.clone(),
            error,
        })?;
    }
    let sentence = sentence(
        report.advice,
        report.requests,
        is_weighed,
        report.time_to_live,
    );
    match options.output {
        Output::Table => print(&format!("{}\n{sentence}\n", report.table())),
        Output::Csv => print(&report.csv()).map(|()| eprintln!("{sentence}")),
        Output::Json => print(&report.json()).map(|()| eprintln!("{sentence}")),
    }
}

/// Reads the trace of the file or of standard input.
fn load(options: &Options, progress: &Progress) -> Result<Trace, RunError> {
    let show = |lines: u64| progress.show(|| format!("reading: {} lines", grouped(lines)));
    let trace = match &options.file {
        Some(name) => {
            let file = File::open(name).map_err(|error| RunError::Open {
                name: name.clone(),
                error,
            })?;
            read(BufReader::with_capacity(1 << 16, file), &options.plan, show)
        }
        None => {
            if io::stdin().is_terminal() {
                eprintln!("moka_sim: reading a trace from the terminal; --help says more");
            }
            read(io::stdin().lock(), &options.plan, show)
        }
    };
    progress.clear();
    trace.map_err(RunError::Read)
}

/// Returns the caches to play on, with the smallest capacity first.
fn plays(options: &Options, trace: &Trace, is_weighed: bool) -> Result<Vec<Play>, RunError> {
    let whole = match is_weighed {
        true => trace
            .footprint()
            .map_err(|error| RunError::Play(error.into()))?,
        false => trace.keys.len() as u64,
    };
    let mut capacities: Vec<u64> = options
        .capacities
        .iter()
        .map(|capacity| capacity.of(whole))
        .collect();
    capacities.sort_unstable();
    capacities.dedup();
    let rules = |capacity| Rules {
        capacity,
        is_weighed,
        time_to_live: options.time_to_live,
    };
    let of_capacity = |capacity| {
        options.settings.iter().map(move |setting| Play {
            setting: *setting,
            rules: rules(capacity),
        })
    };
    Ok(capacities.into_iter().flat_map(of_capacity).collect())
}

/// Writes a text to standard output.
fn print(text: &str) -> Result<(), RunError> {
    let mut out = io::stdout().lock();
    written(out.write_all(text.as_bytes()).and_then(|()| out.flush()))
}

/// Returns what became of a write to standard output. It is no error that nobody reads on.
fn written(result: io::Result<()>) -> Result<(), RunError> {
    match result {
        Err(error) if error.kind() != io::ErrorKind::BrokenPipe => Err(RunError::Write {
            name: "standard output".to_owned(),
            error,
        }),
        _ => Ok(()),
    }
}

/// A line on the terminal that shows how far a run is. It shows nothing if standard error isn't one.
struct Progress {
    is_shown: bool,
    last: Cell<Instant>,
}

impl Progress {
    fn new() -> Progress {
        Progress {
            is_shown: io::stderr().is_terminal(),
            last: Cell::new(Instant::now()),
        }
    }

    /// Shows a text, at most ten times a second.
    fn show(&self, text: impl Fn() -> String) {
        if self.is_shown && self.last.get().elapsed() >= Duration::from_millis(100) {
            self.last.set(Instant::now());
            eprint!("\r\x1b[K{}", text());
        }
    }

    fn clear(&self) {
        if self.is_shown {
            eprint!("\r\x1b[K");
        }
    }
}
