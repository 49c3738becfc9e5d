//! Times the shared caches beside others, all in one run: `threads PROGRAM FILE [REPEATS]`. PROGRAM is the built `bench_load`. The calls a second are drawn into
//! FILE as SVG.
use mini_moka_bench::chart::{Chart, Heights, Panel};
use mini_moka_bench::machine::{describe, Watch};
use mini_moka_bench::memory::keep_memory;
use mini_moka_bench::play_program::{Kind, PlayProgram};
use mini_moka_bench::rust_sides::{original, shared_original};
use mini_moka_bench::table;
use mini_moka_bench::thread_loads::{counting, filling, maintaining, Call, Mix, CALLS, CAPACITY};
use mini_moka_bench::thread_sides::{play, LockedOriginal, Played};
use mini_moka_bench::timing::clock_nanos;
use mini_moka_bench::traces::Settings;
use std::io;
use std::process::{self, ExitCode};

const REPEATS: usize = 7;
const GETS: [u64; 2] = [90, 50];
const THREADS: [usize; 3] = [1, 2, 4];

/// Number of pairs of plays for each repeat, if two sides differ by less than repeats do.
const PAIRS: usize = 8;

/// A cache to compare.
#[derive(Clone, Copy, PartialEq, Eq)]
enum Side {
    Port,
    /// `Port`, each of whose calls reads the clock, as those of `Original` do.
    ClockedPort,
    Segments,
    /// `Segments`, each of whose calls reads the clock.
    ClockedSegments,
    Counted,
    Original,
    LockedOriginal,
    LockedPort,
}

const SIDES: [Side; 7] = [
    Side::Port,
    Side::ClockedPort,
    Side::Segments,
    Side::ClockedSegments,
    Side::Original,
    Side::LockedOriginal,
    Side::LockedPort,
];

/// The sides that are drawn, each of whose calls reads the clock, but for those of the cache in a lock.
const DRAWN: [Side; 4] = [
    Side::ClockedSegments,
    Side::ClockedPort,
    Side::Original,
    Side::LockedPort,
];

/// Calls a second of all threads.
const CHART: Chart = Chart {
    columns: 2,
    sides: &["segments", "sync::Cache", "mini-moka sync", "one lock"],
    places: &[(1.0, "1"), (2.0, "2"), (4.0, "4")],
    across: ("threads", true),
    heights: Heights::Up,
    upwards: ("million calls a second", |calls| format!("{calls}")),
};

/// Data that the plays of all sides share.
struct Bench {
    program: PlayProgram,
    filling: Vec<Call>,
    repeats: usize,
}

/// Outcomes of the plays of one side.
struct Repeats(Vec<Played>);

impl Repeats {
    /// Returns the nanoseconds a call of a thread, in ascending order.
    fn times(&self) -> Vec<f64> {
        let mut times: Vec<f64> = self
            .0
            .iter()
            .map(|played| played.nanos as f64 / CALLS as f64)
            .collect();
        times.sort_by(f64::total_cmp);
        times
    }

    fn median(&self) -> f64 {
        median_of(&self.times())
    }

    /// Returns `true` if all repeats have the same hits and the same sum of values.
    fn are_alike(&self) -> bool {
        let outcome = |played: &Played| (played.hits, played.sum);
        self.0
            .windows(2)
            .all(|pair| outcome(&pair[0]) == outcome(&pair[1]))
    }

    /// Returns the median ratio of each play's time to that of the other side's neighbouring play.
    fn ratio_in_pairs(&self, other: &Repeats) -> f64 {
        let pairs = self.0.iter().zip(&other.0);
        let mut ratios: Vec<f64> = pairs
            .map(|(played, before)| played.nanos as f64 / before.nanos as f64)
            .collect();
        ratios.sort_by(f64::total_cmp);
        median_of(&ratios)
    }

    /// Formats the median, with the least and the greatest in brackets.
    fn text(&self) -> String {
        let times = self.times();
        let (least, greatest) = (times[0], times[times.len() - 1]);
        format!("{:.0} ({least:.0} to {greatest:.0})", self.median())
    }

    /// Formats the hit ratio of all repeats together.
    fn hit_ratio(&self, gets: usize) -> String {
        let hits: u64 = self.0.iter().map(|played| played.hits).sum();
        format!("{:.4}", hits as f64 / (gets * self.0.len()) as f64)
    }
}

/// Returns the median of numbers in ascending order.
fn median_of(sorted: &[f64]) -> f64 {
    let middle = sorted.len() / 2;
    match sorted.len() % 2 {
        0 => (sorted[middle - 1] + sorted[middle]) / 2.0,
        _ => sorted[middle],
    }
}

impl Bench {
    fn play(&mut self, side: Side, lists: &[Vec<Call>]) -> io::Result<Played> {
        let settings = Settings::with_capacity(CAPACITY);
        let is_clocked = matches!(side, Side::ClockedPort | Side::ClockedSegments);
        self.program.set_clock(is_clocked)?;
        match side {
            Side::Port | Side::ClockedPort => self.program.play(Kind::Sync),
            Side::Segments | Side::ClockedSegments => self.program.play(Kind::Segments),
            Side::Counted => self.program.play(Kind::Counted),
            Side::LockedPort => self.program.play(Kind::Unsync),
            Side::Original => Ok(play(&shared_original(&settings), &self.filling, lists)),
            Side::LockedOriginal => {
                let cache = LockedOriginal::new(original(&settings));
                Ok(play(&cache, &self.filling, lists))
            }
        }
    }

    /// Plays the sides in turn, repeat by repeat, in every other repeat in reverse order.
    fn measure<const N: usize>(
        &mut self,
        sides: [Side; N],
        lists: &[Vec<Call>],
        repeats: usize,
    ) -> io::Result<[Repeats; N]> {
        self.program.send_lists(lists)?;
        let mut all = sides.map(|_| Repeats(Vec::new()));
        for repeat in 0..repeats {
            for turn in 0..N {
                let place = if repeat % 2 == 0 { turn } else { N - 1 - turn };
                all[place].0.push(self.play(sides[place], lists)?);
            }
        }
        Ok(all)
    }

    /// Prints the row for `threads` threads. Returns the plays of all sides, and `true` if they are right.
    fn print_row(
        &mut self,
        mix: &Mix,
        threads: usize,
    ) -> io::Result<([Repeats; SIDES.len()], bool)> {
        let watch = Watch::start(&[process::id(), self.program.process()]);
        let all = self.measure(SIDES, &mix.lists[..threads], self.repeats)?;
        let free = watch.free();
        let [port, clocked_port, segments, clocked_segments, others @ ..] = &all;
        let mut cells = vec![mix.gets.to_string(), threads.to_string()];
        cells.extend(all.iter().map(Repeats::text));
        for side in [port, segments] {
            cells.extend(
                others
                    .iter()
                    .map(|other| table::ratio(other.median(), side.median())),
            );
        }
        for side in [clocked_port, clocked_segments] {
            cells.push(table::ratio(others[0].median(), side.median()));
        }
        cells.push(table::ratio(port.median(), segments.median()));
        cells.extend(
            all.iter()
                .map(|repeats| repeats.hit_ratio(mix.gets_of(threads))),
        );
        cells.push(table::number(free));
        table::print_row(&cells);
        let fault = fault_of(&all, threads);
        if let Some(fault) = fault {
            eprintln!(
                "threads: {} gets of 100, {threads} threads: {fault}",
                mix.gets
            );
        }
        Ok((all, fault.is_none()))
    }

    /// Prints the cost of publishing for the calls of `threads` threads.
    fn print_counted_row(&mut self, mix: &Mix, threads: usize) -> io::Result<()> {
        let watch = Watch::start(&[process::id(), self.program.process()]);
        let sides = [Side::Port, Side::Counted];
        let [port, counted] = self.measure(sides, &mix.lists[..threads], PAIRS * self.repeats)?;
        table::print_row(&[
            format!("a call, {} gets of 100", mix.gets),
            threads.to_string(),
            port.text(),
            counted.text(),
            format!("{:.3}", counted.ratio_in_pairs(&port)),
            "".into(),
            table::number(watch.free()),
        ]);
        Ok(())
    }

    /// Prints the hit ratios of `threads` threads on lists whose keys change.
    fn print_turning_row(&mut self, mix: &Mix, threads: usize) -> io::Result<()> {
        let watch = Watch::start(&[process::id(), self.program.process()]);
        let sides = [Side::Port, Side::Original];
        let [port, original] = self.measure(sides, &mix.lists[..threads], self.repeats)?;
        let gets = mix.gets_of(threads);
        table::print_row(&[
            mix.gets.to_string(),
            threads.to_string(),
            port.text(),
            original.text(),
            port.hit_ratio(gets),
            original.hit_ratio(gets),
            table::number(watch.free()),
        ]);
        Ok(())
    }

    /// Prints the time of a maintenance that has nothing to do but publish.
    fn print_maintenance_row(&mut self) -> io::Result<()> {
        let watch = Watch::start(&[process::id(), self.program.process()]);
        let [port, counted, original] = self.measure(
            [Side::Port, Side::Counted, Side::Original],
            &maintaining(),
            self.repeats,
        )?;
        table::print_row(&[
            "a maintenance with nothing to do".into(),
            "1".into(),
            port.text(),
            counted.text(),
            table::ratio(counted.median(), port.median()),
            original.text(),
            table::number(watch.free()),
        ]);
        Ok(())
    }

    /// Prints the time of reading the counts if `threads` threads do nothing else.
    fn print_looks_row(&mut self, threads: usize) -> io::Result<()> {
        let watch = Watch::start(&[process::id(), self.program.process()]);
        let [port, counted, original] = self.measure(
            [Side::Port, Side::Counted, Side::Original],
            &counting(threads),
            self.repeats,
        )?;
        table::print_row(&[
            "a look at the counts".into(),
            threads.to_string(),
            port.text(),
            counted.text(),
            table::ratio(counted.median(), port.median()),
            original.text(),
            table::number(watch.free()),
        ]);
        Ok(())
    }
}

/// Prints the third table: hit ratios on lists whose keys change.
fn print_turning_table(bench: &mut Bench) -> io::Result<()> {
    println!();
    println!("Hits if all keys change halfway through each list.");
    println!();
    table::print_head(&[
        "gets of 100",
        "threads",
        "port, sync",
        "mini-moka, sync",
        "hits, port, sync",
        "hits, mini-moka, sync",
        "processors free",
    ]);
    for gets in GETS {
        let mix = Mix::turning(gets, THREADS[THREADS.len() - 1]);
        for threads in THREADS {
            bench.print_turning_row(&mix, threads)?;
        }
    }
    Ok(())
}

/// Returns the fault of a row, if there is one. No side may have more entries than its capacity. With one thread the order of calls is fixed, so the repeats of
/// a single-thread cache must be alike.
fn fault_of(all: &[Repeats; SIDES.len()], threads: usize) -> Option<&'static str> {
    let [.., original, port] = all;
    let mut plays = all.iter().flat_map(|repeats| &repeats.0);
    if plays.any(|played| played.entries > CAPACITY) {
        return Some("a side has more entries than its capacity");
    }
    if threads == 1 && !(original.are_alike() && port.are_alike()) {
        return Some("the repeats of a single-thread cache differ");
    }
    None
}

/// Prints the second table: the port's `sync` with and without published counts.
fn print_counted_table(bench: &mut Bench) -> io::Result<()> {
    println!();
    println!(
        "The same times for the port's sync without and with published counts. A look calls entry_count, or published if the counts are published. The rows of \
         calls have {PAIRS} plays of each side for each repeat; their ratio is the median of the ratios of neighbouring plays. A maintenance runs at most once \
         in 64 reads or writes."
    );
    println!();
    table::print_head(&[
        "what",
        "threads",
        "port, sync",
        "port, counted",
        "counted to sync",
        "mini-moka, sync",
        "processors free",
    ]);
    for gets in GETS {
        let mix = Mix::new(gets, THREADS[THREADS.len() - 1]);
        for threads in THREADS {
            bench.print_counted_row(&mix, threads)?;
        }
    }
    bench.print_maintenance_row()?;
    for threads in THREADS {
        bench.print_looks_row(threads)?;
    }
    Ok(())
}

/// Prints the rows of a share of gets. Returns their panel, and `true` if all of them are right.
fn print_rows(bench: &mut Bench, gets: u64) -> io::Result<(Panel, bool)> {
    let mix = Mix::new(gets, THREADS[THREADS.len() - 1]);
    let mut lines = vec![Vec::new(); DRAWN.len()];
    let mut all_right = true;
    for threads in THREADS {
        let (all, is_right) = bench.print_row(&mix, threads)?;
        all_right &= is_right;
        for (side, repeats) in SIDES.iter().zip(&all) {
            if let Some(line) = DRAWN.iter().position(|drawn| drawn == side) {
                let millions = 1e3 * threads as f64 / repeats.median();
                lines[line].push((threads as f64, millions));
            }
        }
    }
    let title = format!("{gets} gets and {} inserts of 100 calls", 100 - gets);
    Ok((Panel { title, lines }, all_right))
}

/// Prints the tables, and draws the first. Returns `true` if all rows of the first are right.
fn print_tables(program: &str, file: &str, repeats: usize) -> io::Result<bool> {
    println!(
        "Nanoseconds a call of a thread: the median of {repeats} repeats, in brackets the least and the greatest. A ratio is the first side's calls per \
         second, divided by the second's, from the medians. With a clock, each call of the port reads it, as those of mini-moka's sync do; the other sides of the \
         port have one moment. {}. A reading of the clock takes {:.1}.",
        describe(),
        clock_nanos()
    );
    println!();
    let names = [
        "port, sync",
        "port, sync, with a clock",
        "port, segments",
        "port, segments, with a clock",
        "mini-moka, sync",
        "mini-moka, unsync in a lock",
        "port, unsync in a lock",
    ];
    let mut head = vec!["gets of 100".to_string(), "threads".into()];
    head.extend(names.map(String::from));
    for side in ["sync", "segments"] {
        head.extend(names[4..].iter().map(|name| format!("{side} to {name}")));
    }
    for side in ["sync", "segments"] {
        head.push(format!("{side} with a clock to {}", names[4]));
    }
    head.push("segments to port, sync".into());
    head.extend(names.map(|name| format!("hits, {name}")));
    head.push("processors free".into());
    table::print_head(&head.iter().map(String::as_str).collect::<Vec<_>>());
    let mut bench = Bench {
        program: PlayProgram::start(program)?,
        filling: filling(),
        repeats,
    };
    bench.program.send_filling(CAPACITY, &bench.filling)?;
    let mut all_right = true;
    let mut panels = Vec::new();
    for gets in GETS {
        let (panel, is_right) = print_rows(&mut bench, gets)?;
        panels.push(panel);
        all_right &= is_right;
    }
    std::fs::write(file, CHART.draw(&panels))?;
    print_counted_table(&mut bench)?;
    print_turning_table(&mut bench)?;
    Ok(all_right)
}

fn main() -> ExitCode {
    let words: Vec<String> = std::env::args().skip(1).collect();
    let [program, file, repeats @ ..] = words.as_slice() else {
        eprintln!("usage: threads PROGRAM FILE [REPEATS]");
        return ExitCode::from(2);
    };
    keep_memory();
    let repeats = repeats
        .first()
        .map_or(Ok(REPEATS), |word| word.parse())
        .expect("the number of repeats isn't a number");
    assert!(repeats > 0, "there is nothing to repeat");
    match print_tables(program, file, repeats) {
        Ok(true) => ExitCode::SUCCESS,
        Ok(false) => ExitCode::FAILURE,
        Err(error) => {
            eprintln!("threads: {error}");
            ExitCode::FAILURE
        }
    }
}
