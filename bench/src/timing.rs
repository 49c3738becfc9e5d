//! Times whole traces.
use crate::play_program::Clocked;
use crate::port::{self, Outcome};
use crate::rust_sides::{self, Side};
use crate::traces::{Operation, Settings, Trace};
use std::collections::hash_map::RandomState;
use std::hint::black_box;
use std::io;
use std::time::Instant;

/// Plays operations on a new cache, and returns the nanoseconds and the outcome.
pub type Player = fn(&Settings, &[Operation]) -> (f64, Outcome);

/// Times the port, with the making and the dropping of the cache.
pub fn time_port(settings: &Settings, operations: &[Operation]) -> (f64, Outcome) {
    let start = Instant::now();
    let outcome = port::play(settings, operations);
    (start.elapsed().as_nanos() as f64, black_box(outcome))
}

/// Times the operations alone.
pub fn time_side<S: Side>(mut side: S, operations: &[Operation]) -> (f64, Outcome) {
    let start = Instant::now();
    let outcome = rust_sides::play(&mut side, operations);
    (start.elapsed().as_nanos() as f64, black_box(outcome))
}

pub fn time_original(settings: &Settings, operations: &[Operation]) -> (f64, Outcome) {
    if settings.is_std_hashed {
        let hash_state = RandomState::new();
        return time_side(rust_sides::original_with(settings, hash_state), operations);
    }
    time_side(rust_sides::original(settings), operations)
}

/// Times the core, with its making and its dropping.
pub fn time_core(settings: &Settings, operations: &[Operation]) -> (f64, Outcome) {
    let start = Instant::now();
    let outcome = port::play_core(settings, operations);
    (start.elapsed().as_nanos() as f64, black_box(outcome))
}

pub fn time_shared_original(settings: &Settings, operations: &[Operation]) -> (f64, Outcome) {
    time_side(rust_sides::shared_original(settings), operations)
}

/// Least times of the repeats, in nanoseconds: of a whole trace, and of its filling alone.
#[derive(Clone, Copy)]
pub struct Least {
    pub whole: f64,
    pub filling: f64,
    pub outcome: Outcome,
}

impl Least {
    fn new() -> Least {
        Least {
            whole: f64::INFINITY,
            filling: f64::INFINITY,
            outcome: Outcome::default(),
        }
    }

    fn add(&mut self, (nanos, outcome): (f64, Outcome)) {
        self.whole = self.whole.min(nanos);
        self.outcome = outcome;
    }

    pub fn a_call(&self, trace: &Trace) -> f64 {
        let filling = if trace.filling == 0 {
            0.0
        } else {
            self.filling
        };
        (self.whole - filling) / trace.counted() as f64
    }
}

/// Times the sides in turn, repeat by repeat.
pub fn measure(trace: &Trace, players: &[Option<Player>], repeats: usize) -> Vec<Option<Least>> {
    let mut least: Vec<Option<Least>> = least_of(players);
    for _ in 0..repeats {
        play_once(trace, players, &mut least);
    }
    least
}

/// Times the sides in turn, repeat by repeat, and in each turn also the port's with a clock, if it can play the trace. That side comes last in the result.
pub fn measure_with_clock(
    trace: &Trace,
    players: &[Option<Player>],
    mut clocked: Option<Clocked>,
    repeats: usize,
) -> io::Result<Vec<Option<Least>>> {
    let mut least = least_of(players);
    let mut by_clock = clocked.as_ref().map(|_| Least::new());
    for _ in 0..repeats {
        play_once(trace, players, &mut least);
        if let (Some(clocked), Some(by_clock)) = (&mut clocked, &mut by_clock) {
            // It times the calls after the filling alone.
            by_clock.filling = 0.0;
            by_clock.add(clocked.play()?);
        }
    }
    least.push(by_clock);
    Ok(least)
}

fn least_of(players: &[Option<Player>]) -> Vec<Option<Least>> {
    let least = |player: &Option<Player>| player.map(|_| Least::new());
    players.iter().map(least).collect()
}

/// Plays the trace, and its filling alone, once on each side.
fn play_once(trace: &Trace, players: &[Option<Player>], least: &mut [Option<Least>]) {
    for (player, least) in players.iter().zip(least) {
        let (Some(player), Some(least)) = (player, least) else {
            continue;
        };
        if trace.filling > 0 {
            let (nanos, _) = player(&trace.settings, &trace.operations[..trace.filling]);
            least.filling = least.filling.min(nanos);
        }
        least.add(player(&trace.settings, &trace.operations));
    }
}

/// Returns the nanoseconds of a clock reading.
pub fn clock_nanos() -> f64 {
    let readings = 1_000_000;
    let start = Instant::now();
    for _ in 0..readings {
        black_box(Instant::now());
    }
    start.elapsed().as_nanos() as f64 / f64::from(readings)
}
