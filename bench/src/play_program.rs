//! Plays the port's caches by the program `bench_load`, since the static library has neither threads nor a clock. bench/README.md explains its lines.
use crate::port::Outcome;
use crate::thread_loads::Call;
use crate::thread_sides::Played;
use crate::traces::{Operation, Trace, GET, GET_AND_INSERT, INSERT, READ_THROUGH};
use std::io::{self, BufRead, BufReader, BufWriter, Write};
use std::process::{Child, ChildStdin, ChildStdout, Command, Stdio};

/// A cache of the port.
#[derive(Clone, Copy)]
pub enum Kind {
    /// `sync::Cache`.
    Sync,
    /// `sync::Cache` with published counts.
    Counted,
    /// `unsync::Cache` with one lock around it.
    Unsync,
    /// `sync::SegmentedCache`.
    Segments,
    /// `unsync::Cache`, by one caller.
    Alone,
    /// The core of `sync::Cache`, by one caller.
    Core,
}

/// Writes the requests that set the capacity and the filling of new caches.
pub fn write_filling(requests: &mut impl Write, capacity: u64, filling: &[Call]) -> io::Result<()> {
    writeln!(requests, "capacity {capacity}")?;
    write_calls(requests, filling)
}

/// Writes the requests that set the threads' lists of calls.
pub fn write_lists(requests: &mut impl Write, lists: &[Vec<Call>]) -> io::Result<()> {
    writeln!(requests, "clear")?;
    for list in lists {
        writeln!(requests, "thread")?;
        write_calls(requests, list)?;
    }
    Ok(())
}

fn write_calls(requests: &mut impl Write, calls: &[Call]) -> io::Result<()> {
    for call in calls {
        match call {
            Call::Get(key) => writeln!(requests, "get {key}")?,
            Call::Insert(key) => writeln!(requests, "insert {key}")?,
            Call::Count => writeln!(requests, "count")?,
            Call::Sync => writeln!(requests, "sync")?,
        }
    }
    Ok(())
}

/// Writes the requests that set the limits, the filling and the calls of a trace. Returns `false` if `bench_load` can't play it.
fn write_trace(requests: &mut impl Write, trace: &Trace) -> io::Result<bool> {
    let settings = &trace.settings;
    let is_known = |operation: &Operation| {
        [GET, INSERT, READ_THROUGH, GET_AND_INSERT].contains(&operation.kind)
    };
    let has_others = settings.is_weighed || settings.is_std_hashed;
    if has_others || !trace.operations.iter().all(is_known) {
        return Ok(false);
    }
    writeln!(requests, "capacity {}", settings.capacity)?;
    if settings.has_durations() {
        writeln!(
            requests,
            "durations {}",
            settings.time_to_live / NANOS_A_SECOND
        )?;
    }
    for (number, operation) in trace.operations.iter().enumerate() {
        if number == trace.filling {
            writeln!(requests, "thread")?;
        }
        let key = operation.key;
        match operation.kind {
            GET => writeln!(requests, "get {key}")?,
            INSERT => writeln!(requests, "insert {key}")?,
            READ_THROUGH => writeln!(requests, "read {key}")?,
            _ => writeln!(requests, "get {key}\ninsert {key}")?,
        }
    }
    Ok(true)
}

const NANOS_A_SECOND: u64 = 1_000_000_000;

/// A `bench_load` that plays one trace by one caller, each of whose calls reads the clock.
pub struct Clocked {
    program: PlayProgram,
    kind: Kind,
}

impl Clocked {
    /// Starts the program with the trace, or returns `None` if the program can't play it.
    pub fn start(path: &str, kind: Kind, trace: &Trace) -> io::Result<Option<Clocked>> {
        let mut program = PlayProgram::start(path)?;
        if !write_trace(&mut program.requests, trace)? {
            return Ok(None);
        }
        writeln!(program.requests, "clock on")?;
        Ok(Some(Clocked { program, kind }))
    }

    /// Plays the trace on a new cache. Returns the nanoseconds of the calls after the filling, and the outcome.
    pub fn play(&mut self) -> io::Result<(f64, Outcome)> {
        let played = self.program.play(self.kind)?;
        let outcome = Outcome {
            hits: played.hits,
            checksum: played.sum,
            entries: played.entries,
            weight: played.entries,
        };
        Ok((played.nanos as f64, outcome))
    }
}

/// A running `bench_load`.
pub struct PlayProgram {
    child: Child,
    requests: BufWriter<ChildStdin>,
    replies: BufReader<ChildStdout>,
}

impl PlayProgram {
    /// Starts the program. Its `malloc` keeps freed memory, as that of this process does (`memory::keep_memory`).
    pub fn start(path: &str) -> io::Result<PlayProgram> {
        let mut child = Command::new(path)
            .env("MALLOC_MMAP_MAX_", "0")
            .env("MALLOC_TRIM_THRESHOLD_", (1u64 << 40).to_string())
            .stdin(Stdio::piped())
            .stdout(Stdio::piped())
            .spawn()?;
        let (Some(stdin), Some(stdout)) = (child.stdin.take(), child.stdout.take()) else {
            unreachable!("both are pipes");
        };
        Ok(PlayProgram {
            child,
            requests: BufWriter::new(stdin),
            replies: BufReader::new(stdout),
        })
    }

    pub fn process(&self) -> u32 {
        self.child.id()
    }

    /// Sets the capacity and the filling of new caches. Must come before `send_lists`.
    pub fn send_filling(&mut self, capacity: u64, filling: &[Call]) -> io::Result<()> {
        write_filling(&mut self.requests, capacity, filling)
    }

    /// Sets the threads' lists of calls.
    pub fn send_lists(&mut self, lists: &[Vec<Call>]) -> io::Result<()> {
        write_lists(&mut self.requests, lists)?;
        self.requests.flush()
    }

    /// Makes the calls of later plays read the clock, or makes all calls of a play have one moment.
    pub fn set_clock(&mut self, is_read: bool) -> io::Result<()> {
        writeln!(
            self.requests,
            "clock {}",
            if is_read { "on" } else { "off" }
        )
    }

    /// Plays the lists on a new cache.
    pub fn play(&mut self, kind: Kind) -> io::Result<Played> {
        let [hits, sum, entries] = self.ask(
            match kind {
                Kind::Sync => "play sync",
                Kind::Counted => "play counted",
                Kind::Unsync => "play unsync",
                Kind::Segments => "play segments",
                Kind::Alone => "play alone",
                Kind::Core => "play core",
            },
            ["hits", "sum", "entries"],
        )?;
        let [nanos] = self.ask("nanos", ["nanos"])?;
        Ok(Played {
            hits,
            sum,
            entries,
            nanos,
        })
    }

    /// Sends a request, and returns the numbers of the reply, each of which follows its name.
    fn ask<const N: usize>(&mut self, request: &str, names: [&str; N]) -> io::Result<[u64; N]> {
        writeln!(self.requests, "{request}")?;
        self.requests.flush()?;
        let mut reply = String::new();
        self.replies.read_line(&mut reply)?;
        let mut words = reply.split_whitespace();
        let mut numbers = [0; N];
        for (number, name) in numbers.iter_mut().zip(names) {
            let is_named = words.next() == Some(name);
            match words.next().and_then(|word| word.parse().ok()) {
                Some(told) if is_named => *number = told,
                _ => return Err(io::Error::other(format!("{request}: {reply:?}"))),
            }
        }
        Ok(numbers)
    }
}

impl Drop for PlayProgram {
    fn drop(&mut self) {
        // Nothing reads its replies any more.
        let _ = self.child.kill();
        let _ = self.child.wait();
    }
}
