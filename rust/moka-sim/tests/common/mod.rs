//! Helpers of the tests.
#![allow(dead_code)]

use moka_sim::args::{parse, Command, Options};
use moka_sim::play::{play_all, Outcome, Play};
use moka_sim::policies::{Rules, Setting};
use moka_sim::reader::{read, ReadError};
use moka_sim::trace::Trace;
use std::io::Write;
use std::process::{Command as Program, Output, Stdio};

/// Parses arguments that must be right, and play a trace.
pub fn options(arguments: &[&str]) -> Options {
    match parse(&owned(arguments)) {
        Ok(Command::Play(options)) => options,
        other => panic!("{arguments:?}: {other:?}"),
    }
}

pub fn owned(arguments: &[&str]) -> Vec<String> {
    arguments
        .iter()
        .map(|argument| argument.to_string())
        .collect()
}

/// Reads a trace with these arguments.
pub fn try_trace(arguments: &[&str], text: &[u8]) -> Result<Trace, ReadError> {
    read(text, &options(arguments).plan, |_| ())
}

pub fn trace(arguments: &[&str], text: &str) -> Trace {
    try_trace(arguments, text.as_bytes()).unwrap_or_else(|error| panic!("{error}"))
}

/// Returns a trace of keys that are separated by blanks.
pub fn keys(text: &str) -> Trace {
    let lines: Vec<&str> = text.split_whitespace().collect();
    trace(&["--format", "lines"], &lines.join("\n"))
}

/// Plays a trace on a cache with these rules.
pub fn outcome(trace: &Trace, setting: Setting, rules: Rules) -> Outcome {
    play_all(trace, &[Play { setting, rules }], 1, |_| ())
        .expect("plays")
        .remove(0)
}

/// Plays a trace on a cache of so many entries.
pub fn entries(trace: &Trace, setting: Setting, capacity: u64) -> Outcome {
    outcome(
        trace,
        setting,
        Rules {
            capacity,
            is_weighed: false,
            time_to_live: None,
        },
    )
}

/// Runs the program on an input.
pub fn run(arguments: &[&str], input: &[u8]) -> Output {
    ended(
        Program::new(env!("CARGO_BIN_EXE_moka_sim")).args(arguments),
        input,
    )
}

/// Runs the program with so many KiB of address space.
pub fn limited_run(kibibytes: u32, arguments: &[&str], input: &[u8]) -> Output {
    let script = format!("ulimit -v {kibibytes} && exec \"$0\" \"$@\"");
    let mut shell = Program::new("sh");
    ended(
        shell
            .args(["-c", &script, env!("CARGO_BIN_EXE_moka_sim")])
            .args(arguments),
        input,
    )
}

fn ended(program: &mut Program, input: &[u8]) -> Output {
    let program = program
        .stdin(Stdio::piped())
        .stdout(Stdio::piped())
        .stderr(Stdio::piped());
    let mut child = program.spawn().expect("the program starts");
    // A program that refuses its arguments doesn't read.
    let _ = child.stdin.take().expect("a pipe").write_all(input);
    child.wait_with_output().expect("the program ends")
}

pub fn text(bytes: &[u8]) -> String {
    String::from_utf8(bytes.to_vec()).expect("text")
}

/// Returns the first part of a text between two others.
pub fn between<'a>(text: &'a str, before: &str, after: &str) -> &'a str {
    text.split_once(before)
        .and_then(|(_, rest)| rest.split_once(after))
        .map_or("", |(found, _)| found)
}
