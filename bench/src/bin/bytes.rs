//! Counts the bytes that an entry takes on each side: `bytes [sync]`. With `sync`, the sides are the core of the shared cache and the original's `sync`.
use mini_moka_bench::hand_lists::ListLoad;
use mini_moka_bench::port::{self, IndexLoad};
use mini_moka_bench::rust_sides::{self, Side};
use mini_moka_bench::table;
use mini_moka_bench::traces::{self, Settings, Trace};
use std::alloc::{GlobalAlloc, Layout, System};
use std::sync::atomic::{AtomicUsize, Ordering::Relaxed};

mod recorder {
    //! Records the port's allocations. The linker redirects the calls of `malloc`, `realloc` and `free` here. They are recorded only
    //! while `record` runs.
    use std::collections::HashMap;
    use std::ffi::c_void;
    use std::sync::Mutex;
    use std::time::{Duration, Instant};

    extern "C" {
        fn __real_malloc(size: usize) -> *mut c_void;
        fn __real_realloc(block: *mut c_void, size: usize) -> *mut c_void;
        fn __real_free(block: *mut c_void);
    }

    const MOST_BLOCKS: usize = 3 << 20;

    /// Sizes of the held blocks by their addresses, and the total that was held longest.
    struct Record {
        since: Instant,
        blocks: HashMap<usize, usize>,
        held: usize,
        longest: Duration,
        totals: Totals,
    }

    /// Totals of held bytes.
    #[derive(Clone, Copy, Default)]
    pub struct Totals {
        /// Total that was held longest.
        pub longest: usize,
        pub peak: usize,
    }

    static RECORD: Mutex<Option<Record>> = Mutex::new(None);

    impl Record {
        // The map gets its whole capacity now, since an allocation by the record itself can't be recorded. The clock starts after that,
        // so that this time doesn't count as one in which nothing was held.
        fn new() -> Record {
            let blocks = HashMap::with_capacity(MOST_BLOCKS);
            Record {
                since: Instant::now(),
                blocks,
                held: 0,
                longest: Duration::ZERO,
                totals: Totals::default(),
            }
        }

        /// Ends the time in which the present total was held.
        fn close(&mut self) {
            let now = Instant::now();
            if now - self.since > self.longest {
                self.longest = now - self.since;
                self.totals.longest = self.held;
            }
            self.since = now;
        }

        fn take(&mut self, block: usize, size: usize) {
            self.close();
            if self.blocks.len() == MOST_BLOCKS {
                // The map is full. A message would allocate.
                std::process::abort();
            }
            self.blocks.insert(block, size);
            self.held += size;
            self.totals.peak = self.totals.peak.max(self.held);
        }

        fn give_back(&mut self, block: usize) {
            self.close();
            self.held -= self.blocks.remove(&block).unwrap_or(0);
        }
    }

    /// Runs `play`, and returns the totals held meanwhile.
    pub fn record(play: impl FnOnce()) -> Totals {
        let record = Record::new();
        *RECORD.lock().unwrap() = Some(record);
        play();
        let record = RECORD.lock().unwrap().take();
        let Some(mut record) = record else {
            unreachable!("nothing else ends a record");
        };
        record.close();
        record.totals
    }

    /// Applies a change to the record, if there is one.
    fn with_record(change: impl FnOnce(&mut Record)) {
        if let Some(record) = RECORD.lock().unwrap().as_mut() {
            change(record);
        }
    }

    #[no_mangle]
    extern "C" fn __wrap_malloc(size: usize) -> *mut c_void {
        let block = unsafe { __real_malloc(size) };
        if !block.is_null() {
            with_record(|record| record.take(block as usize, size));
        }
        block
    }

    #[no_mangle]
    extern "C" fn __wrap_realloc(old: *mut c_void, size: usize) -> *mut c_void {
        let block = unsafe { __real_realloc(old, size) };
        if !block.is_null() {
            with_record(|record| {
                record.give_back(old as usize);
                record.take(block as usize, size);
            });
        }
        block
    }

    #[no_mangle]
    extern "C" fn __wrap_free(block: *mut c_void) {
        if !block.is_null() {
            with_record(|record| record.give_back(block as usize));
        }
        unsafe { __real_free(block) }
    }
}

/// Allocator that counts the bytes of the other sides.
struct Counting;

static PRESENT: AtomicUsize = AtomicUsize::new(0);
static PEAK: AtomicUsize = AtomicUsize::new(0);

fn add(size: usize) {
    let present = PRESENT.fetch_add(size, Relaxed) + size;
    PEAK.fetch_max(present, Relaxed);
}

unsafe impl GlobalAlloc for Counting {
    unsafe fn alloc(&self, layout: Layout) -> *mut u8 {
        add(layout.size());
        unsafe { System.alloc(layout) }
    }

    unsafe fn dealloc(&self, block: *mut u8, layout: Layout) {
        PRESENT.fetch_sub(layout.size(), Relaxed);
        unsafe { System.dealloc(block, layout) }
    }

    // As the recorder does, this counts the new size alone: by default both blocks would count while one is copied.
    unsafe fn realloc(&self, block: *mut u8, layout: Layout, size: usize) -> *mut u8 {
        PRESENT.fetch_sub(layout.size(), Relaxed);
        add(size);
        unsafe { System.realloc(block, layout, size) }
    }
}

#[global_allocator]
static ALLOCATOR: Counting = Counting;

/// Plays a trace on a new side. Returns its bytes at the end, and their maximum.
fn count<S: Side>(build: fn(&Settings) -> S, trace: &Trace) -> (usize, usize) {
    let before = PRESENT.load(Relaxed);
    PEAK.store(before, Relaxed);
    let mut side = build(&trace.settings);
    rust_sides::play(&mut side, &trace.operations);
    let after = PRESENT.load(Relaxed);
    (after - before, PEAK.load(Relaxed) - before)
}

/// Formats bytes an entry, with the maximum in brackets.
fn cell(entries: u64, (held, peak): (usize, usize)) -> String {
    let a_entry = |bytes| bytes as f64 / entries as f64;
    format!("{:.1} ({:.1})", a_entry(held), a_entry(peak))
}

/// Returns the settings whose bytes are counted, each with its name.
fn settings_of(entries: u64) -> [(&'static str, Settings); 3] {
    let plain = Settings::with_capacity(entries);
    [
        ("", plain),
        (", time to live", plain.with_time_to_live()),
        (", both durations", plain.with_durations()),
    ]
}

/// Prints the table of the shared cache's core beside the original's `sync`. Look-ups in the core don't allocate.
fn print_shared() {
    println!("Bytes an entry of two 64-bit numbers, in a full shared cache; in brackets the maximum while it grew.");
    println!();
    table::print_head(&["Entries", "core", "mini-moka, sync"]);
    for entries in [10_000, 1_000_000] {
        for (name, settings) in settings_of(entries) {
            let trace = traces::held(settings, entries);
            let core = recorder::record(|| {
                port::play_core(&trace.settings, &trace.operations);
            });
            let original = count(rust_sides::shared_original, &trace);
            table::print_row(&[
                format!("{entries}{name}"),
                cell(entries, (core.longest, core.peak)),
                cell(entries, original),
            ]);
        }
    }
}

fn main() {
    if std::env::args().nth(1).as_deref() == Some("sync") {
        print_shared();
        return;
    }
    println!("Bytes an entry of two 64-bit numbers, in a full cache; in brackets the maximum while it grew.");
    println!();
    table::print_head(&["Entries", "port", "mini-moka", "lru", "map"]);
    for entries in [10_000, 1_000_000] {
        for (name, settings) in settings_of(entries) {
            let trace = traces::held(settings, entries);
            let port = recorder::record(|| {
                port::play(&trace.settings, &trace.operations);
            });
            let original = count(rust_sides::original, &trace);
            let others = (!settings.has_durations()).then(|| {
                [
                    count(rust_sides::lru_cache, &trace),
                    count(rust_sides::map, &trace),
                ]
            });
            let cell = |bytes| cell(entries, bytes);
            let [lru, map] = others.map_or(["-".into(), "-".into()], |others| others.map(cell));
            table::print_row(&[
                format!("{entries}{name}"),
                cell((port.longest, port.peak)),
                cell(original),
                lru,
                map,
            ]);
        }
    }
    println!();
    println!("Bytes an id in the port's index, and in std's map from hashes to ids.");
    println!();
    table::print_head(&["Ids", "index", "map"]);
    for ids in [10_000, 1_000_000] {
        let hashes: Vec<u64> = (0..ids).map(traces::spread).collect();
        let held = |play: fn(IndexLoad, &[u64], &[u64], usize) -> u64| {
            let held = recorder::record(|| {
                play(IndexLoad::Find, &hashes, &hashes, 20);
            });
            format!("{:.1}", held.longest as f64 / ids as f64)
        };
        table::print_row(&[ids.to_string(), held(port::index), held(port::index_by_map)]);
    }
    println!();
    println!("Bytes a node of the port's list, with elements of 8 bytes.");
    println!();
    table::print_head(&["Nodes", "port"]);
    for nodes in [1_000, 1_000_000] {
        let held = recorder::record(|| {
            port::list(ListLoad::TakeTurns, nodes, &[], 10);
        });
        table::print_row(&[
            nodes.to_string(),
            format!("{:.1}", held.longest as f64 / nodes as f64),
        ]);
    }
}
