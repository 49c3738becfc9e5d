//! Times calls through the package in Rust, beside the original and `lru` in one process: `mini_moka_library_bench INSIDE [REPEATS]`.
//!
//! Numbers are keys and values of 64 bits. Bytes are keys of 16 bytes and values of 64, which the package copies in and out. A typed cache has keys of 64 bits,
//! and one of texts keys of 25 bytes that are made in each call; both have values of 24 bytes. Each side has its default hash.
//! Each found number is copied, and one byte of each found value of bytes is read. INSIDE is the program that plays a trace of numbers inside Rattle, since two
//! static libraries of Rattle don't link into one program.
//!
//! Each repeat is a process of its own, `mini_moka_library_bench once KIND TRACE`. The pages of memory that a process gets decide how much of a cache fits into
//! the processor's caches, which changes the time of a call by up to a half. `mini_moka_library_bench count KIND TRACE CALLS` plays the package alone, under
//! callgrind.
#[path = "../../src/callgrind.rs"]
mod callgrind;
#[path = "../../src/memory.rs"]
mod memory;
mod sides;
#[allow(dead_code)]
#[path = "../../src/table.rs"]
mod table;
#[allow(dead_code)]
#[path = "../../src/traces.rs"]
mod traces;

use sides::{
    LruNumbers, LruTexts, LruTyped, OriginalNumbers, OriginalTexts, OriginalTyped, PackageNumbers,
    PackageTexts, PackageTyped, Side,
};
use std::hint::black_box;
use std::path::{Path, PathBuf};
use std::process::Command;
use std::time::Instant;
use traces::{Operation, Trace, GET, INSERT, READ_THROUGH};

const REPEATS: usize = 5;
/// Number of calls that instructions are counted for: those of twice as many calls, less those of this many.
const COUNTED_CALLS: usize = 100_000;

type Make = fn(capacity: u64) -> Box<dyn Side>;

fn package_numbers(capacity: u64) -> Box<dyn Side> {
    let builder = mini_moka_proved::NumberCache::builder().max_capacity(capacity);
    let cache = builder.build().expect("memory is available");
    Box::new(PackageNumbers(cache))
}

fn original_numbers(capacity: u64) -> Box<dyn Side> {
    let cache = mini_moka::unsync::Cache::new(capacity);
    Box::new(OriginalNumbers(cache))
}

fn lru_numbers(capacity: u64) -> Box<dyn Side> {
    let cache = lru::LruCache::new(capacity as usize);
    Box::new(LruNumbers(cache))
}

/// Buffers of a key and of the only value. Each key is written in place just before its call, so no side waits for keys from memory.
struct Bytes {
    key: Vec<u8>,
    value: Vec<u8>,
}

impl Bytes {
    fn new() -> Bytes {
        Bytes {
            key: vec![0; 16],
            value: vec![7; 64],
        }
    }

    fn set_key(&mut self, number: u64) {
        self.key[..8].copy_from_slice(&number.to_le_bytes());
        self.key[8..].copy_from_slice(&(!number).to_le_bytes());
    }
}

/// Reads a byte of the value, if one was found. Returns `true` if so.
fn read(found: Option<&Vec<u8>>) -> bool {
    black_box(found.map(|value| value[0])).is_some()
}

struct PackageBytes {
    cache: mini_moka_proved::ByteCache,
    bytes: Bytes,
    found: Vec<u8>,
}

impl Side for PackageBytes {
    fn get(&mut self, key: u64) -> bool {
        self.bytes.set_key(key);
        let found = self.cache.get_into(&self.bytes.key, &mut self.found);
        let is_found = found.unwrap_or(false);
        read(is_found.then_some(&self.found))
    }

    fn insert(&mut self, key: u64) {
        self.bytes.set_key(key);
        self.cache
            .insert(&self.bytes.key, &self.bytes.value)
            .expect("memory is available");
    }
}

fn package_bytes(capacity: u64) -> Box<dyn Side> {
    let builder = mini_moka_proved::ByteCache::builder().max_capacity(capacity);
    Box::new(PackageBytes {
        cache: builder.build().expect("memory is available"),
        bytes: Bytes::new(),
        found: Vec::with_capacity(64),
    })
}

struct OriginalBytes(mini_moka::unsync::Cache<Vec<u8>, Vec<u8>>, Bytes);

impl Side for OriginalBytes {
    fn get(&mut self, key: u64) -> bool {
        self.1.set_key(key);
        read(self.0.get(&self.1.key))
    }

    fn insert(&mut self, key: u64) {
        self.1.set_key(key);
        self.0.insert(self.1.key.clone(), self.1.value.clone());
    }
}

fn original_bytes(capacity: u64) -> Box<dyn Side> {
    let cache = mini_moka::unsync::Cache::new(capacity);
    Box::new(OriginalBytes(cache, Bytes::new()))
}

struct LruBytes(lru::LruCache<Vec<u8>, Vec<u8>>, Bytes);

impl Side for LruBytes {
    fn get(&mut self, key: u64) -> bool {
        self.1.set_key(key);
        read(self.0.get(&self.1.key))
    }

    fn insert(&mut self, key: u64) {
        self.1.set_key(key);
        self.0.put(self.1.key.clone(), self.1.value.clone());
    }
}

fn lru_bytes(capacity: u64) -> Box<dyn Side> {
    let cache = lru::LruCache::new(capacity as usize);
    Box::new(LruBytes(cache, Bytes::new()))
}

/// Makes an operation. Returns `true` if it found a value.
fn make(side: &mut dyn Side, operation: &Operation) -> bool {
    let key = operation.key;
    match operation.kind {
        GET => side.get(key),
        INSERT => {
            side.insert(key);
            false
        }
        READ_THROUGH => {
            let is_found = side.get(key);
            if !is_found {
                side.insert(key);
            }
            is_found
        }
        _ => unreachable!("library traces have no other operations"),
    }
}

/// Nanoseconds a call of a play, and the share of calls that found a value.
struct Played {
    nanos: f64,
    hits: f64,
}

/// Makes operations, and returns the number that found a value. It isn't inlined, since callgrind counts it by name.
#[inline(never)]
fn play_counted(side: &mut dyn Side, operations: &[Operation]) -> usize {
    operations.iter().filter(|it| make(side, it)).count()
}

/// Plays a trace on a new cache.
fn play(make_side: Make, trace: &Trace) -> Played {
    let mut side = make_side(trace.settings.capacity);
    let (filling, counted) = trace.operations.split_at(trace.filling);
    for operation in filling {
        make(&mut *side, operation);
    }
    let start = Instant::now();
    let hits = play_counted(&mut *side, counted);
    let nanos = start.elapsed().as_nanos() as f64;
    let calls = counted.len() as f64;
    Played {
        nanos: nanos / calls,
        hits: hits as f64 / calls,
    }
}

/// A kind of keys and values, with a constructor for each side.
struct Kind {
    name: &'static str,
    /// Constructors for the package, the original and `lru`.
    sides: [Make; 3],
    /// True if INSIDE plays this kind.
    is_inside: bool,
}

const TYPED: [Make; 3] = [
    |capacity| Box::new(PackageTyped(mini_moka_proved::Cache::new(capacity))),
    |capacity| Box::new(OriginalTyped(mini_moka::unsync::Cache::new(capacity))),
    |capacity| Box::new(LruTyped(lru::LruCache::new(capacity as usize))),
];

const TEXTS: [Make; 3] = [
    |capacity| Box::new(PackageTexts(mini_moka_proved::Cache::new(capacity))),
    |capacity| Box::new(OriginalTexts(mini_moka::unsync::Cache::new(capacity))),
    |capacity| Box::new(LruTexts(lru::LruCache::new(capacity as usize))),
];

const KINDS: [Kind; 4] = [
    Kind {
        name: "numbers",
        sides: [package_numbers, original_numbers, lru_numbers],
        is_inside: true,
    },
    Kind {
        name: "bytes",
        sides: [package_bytes, original_bytes, lru_bytes],
        is_inside: false,
    },
    Kind {
        name: "typed",
        sides: TYPED,
        is_inside: false,
    },
    Kind {
        name: "texts",
        sides: TEXTS,
        is_inside: false,
    },
];

/// Finds the kind and the trace by their names.
fn named(kind: &str, trace: &str, calls: usize) -> (&'static Kind, Trace) {
    let kind = KINDS.iter().find(|it| it.name == kind);
    let trace = traces::library_trace(trace, calls);
    kind.zip(trace).expect("no kind or trace has this name")
}

/// Plays the trace on each side in turn, and prints the time and the hit ratio of each.
fn play_once(kind: &str, trace: &str) {
    let (kind, trace) = named(kind, trace, traces::CALLS);
    memory::keep_memory();
    for make_side in kind.sides {
        let played = play(make_side, &trace);
        println!("{} {}", played.nanos, played.hits);
    }
}

/// Plays `calls` calls on the package alone.
fn play_package(kind: &str, trace: &str, calls: usize) {
    let (kind, trace) = named(kind, trace, calls);
    play(kind.sides[0], &trace);
}

/// Runs a program, and returns the numbers that it prints.
fn numbers_of(command: &mut Command) -> Vec<f64> {
    let output = command.output().expect("a play can't be started");
    assert!(output.status.success(), "a play failed");
    String::from_utf8_lossy(&output.stdout)
        .split_whitespace()
        .map(|word| word.parse().expect("a play prints numbers"))
        .collect()
}

fn this_program() -> PathBuf {
    std::env::current_exe().expect("the path of this program is unknown")
}

/// Returns the instructions that `function` takes for a call. The program's last argument is the number of calls.
fn instructions(program: &Path, function: &str, words: &[&str]) -> Option<f64> {
    let of = |calls: usize| {
        let calls = calls.to_string();
        let words = [words, &[calls.as_str()]].concat();
        callgrind::collected(program, &words, Some(function))
    };
    Some((of(2 * COUNTED_CALLS)? - of(COUNTED_CALLS)?) / COUNTED_CALLS as f64)
}

/// Prints the row of a trace, with the least time of each side. The sides play in turn, repeat by repeat.
fn print_trace(kind: &Kind, trace: &str, inside: &str, repeats: usize) {
    let mut least = [f64::INFINITY; 3];
    let mut least_inside = kind.is_inside.then_some(f64::INFINITY);
    let mut hits = [0.0; 3];
    for _ in 0..repeats {
        let numbers = numbers_of(Command::new(this_program()).args(["once", kind.name, trace]));
        for (side, played) in numbers.chunks_exact(2).enumerate() {
            least[side] = least[side].min(played[0]);
            hits[side] = played[1];
        }
        if let Some(least) = &mut least_inside {
            let numbers = numbers_of(Command::new(inside).arg(trace));
            *least = least.min(numbers[0]);
        }
    }
    let [package, original, lru] = least;
    let mut cells = vec![format!("{}: {trace}", kind.name)];
    let above = least_inside.map(|inside| package - inside);
    let nanos = [
        Some(package),
        least_inside,
        above,
        Some(original),
        Some(lru),
    ];
    cells.extend(nanos.map(table::number));
    cells.push(table::ratio(package, original));
    cells.extend(hits.map(|share| format!("{share:.4}")));
    let words = ["count", kind.name, trace];
    let counted = instructions(&this_program(), "*play_counted*", &words);
    let inside_counts = || instructions(inside.as_ref(), "bench_trace_play", &[trace]);
    let counted_inside = kind.is_inside.then(inside_counts).flatten();
    cells.extend([counted, counted_inside].map(table::number));
    table::print_row(&cells);
}

fn print_table(inside: &str, repeats: usize) {
    println!(
        "Nanoseconds a call, the least of {repeats} repeats; instructions a call by callgrind.\n"
    );
    table::print_head(&[
        "Trace",
        "package",
        "inside",
        "package less inside",
        "mini-moka",
        "lru",
        "package to mini-moka",
        "hits, package",
        "hits, mini-moka",
        "hits, lru",
        "package, instructions",
        "inside, instructions",
    ]);
    for kind in &KINDS {
        for trace in traces::LIBRARY_TRACES {
            print_trace(kind, trace, inside, repeats);
        }
    }
}

fn main() {
    let words: Vec<String> = std::env::args().skip(1).collect();
    let words: Vec<&str> = words.iter().map(String::as_str).collect();
    match words.as_slice() {
        ["once", kind, trace] => play_once(kind, trace),
        ["count", kind, trace, calls] => {
            let calls = calls.parse();
            play_package(
                kind,
                trace,
                calls.expect("the number of calls isn't a number"),
            );
        }
        [inside] => print_table(inside, REPEATS),
        [inside, repeats] => {
            let repeats = repeats.parse();
            print_table(inside, repeats.expect("the repeat count isn't a number"));
        }
        _ => panic!("usage: mini_moka_library_bench INSIDE [REPEATS]"),
    }
}
