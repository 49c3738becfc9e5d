//! Counts instructions, which don't vary from run to run as times do.
use std::path::Path;
use std::process::Command;

/// Counts the instructions of a run of a program, or of one of its functions. Returns `None` if `valgrind` isn't installed or fails.
pub fn collected(program: &Path, words: &[&str], function: Option<&str>) -> Option<f64> {
    let output = Command::new("valgrind")
        .args(["--tool=callgrind", "--callgrind-out-file=/dev/null"])
        .args(function.map(|name| format!("--toggle-collect={name}")))
        .arg(program)
        .args(words)
        .output()
        .ok()?;
    let told = String::from_utf8_lossy(&output.stderr).into_owned();
    let (_, count) = told.split_once("Collected : ")?;
    count.split_whitespace().next()?.parse().ok()
}
