//! Compares the replies of both sides to a script, line by line.
use crate::original::{self, Met, Reply, Run};
use crate::program::Program;
use crate::rules::{End, Rule};
use crate::script::Script;

/// The port, and the model that replaces the original if the limit has a window.
pub struct Sides {
    pub port: Program,
    pub model: Program,
}

/// Result of a script.
#[derive(Default)]
pub struct Outcome {
    /// True if the script was compared with the model.
    pub by_model: bool,
    pub compared: u64,
    pub equal: u64,
    /// Rules of the allowed differences, one for each line that differs.
    pub allowed: Vec<Rule>,
    /// Reason for an early end.
    pub end: Option<End>,
    /// Number of lines that an early end leaves out.
    pub behind_end: u64,
    pub met: Met,
    pub difference: Option<Difference>,
}

/// A difference that no rule allows.
#[derive(Clone)]
pub struct Difference {
    /// Line number in the script, counted from 1.
    pub line: usize,
    pub expected: String,
    pub found: String,
}

/// Runs the script on both sides, and compares the replies.
pub fn outcome(script: &Script, sides: &Sides) -> Outcome {
    let run = if script.has_window() {
        of_model(script, &sides.model)
    } else {
        original::run(script)
    };
    let mut outcome = Outcome {
        by_model: script.has_window(),
        end: run.end,
        met: run.met,
        behind_end: (script.lines.len() + 1 - run.replies.len()) as u64,
        ..Outcome::default()
    };
    match sides.port.replies(script) {
        Ok(found) => outcome.compare(script, &run, &found),
        Err(error) => outcome.differ(0, "replies".to_string(), error),
    }
    outcome
}

/// Runs the script on the model. The port's replies must equal the model's, with pairs in the same order.
fn of_model(script: &Script, model: &Program) -> Run {
    let (lines, fault) = match model.replies(script) {
        Ok(lines) if lines.len() == script.lines.len() + 1 => (lines, None),
        Ok(lines) => (Vec::new(), Some(format!("the model wrote {} replies", lines.len()))),
        Err(error) => (Vec::new(), Some(format!("the model: {error}"))),
    };
    Run {
        replies: lines.into_iter().map(|line| Reply::Words(line, None)).collect(),
        end: None,
        fault,
        met: Met::default(),
    }
}

impl Outcome {
    fn compare(&mut self, script: &Script, run: &Run, found: &[String]) {
        for (place, reply) in run.replies.iter().enumerate() {
            let line = found.get(place).map_or("nothing", String::as_str);
            self.compare_line(place, reply, line);
            if self.difference.is_some() {
                return;
            }
        }
        if let Some(fault) = &run.fault {
            self.differ(run.replies.len(), fault.clone(), line_or_nothing(found, run.replies.len()));
        } else if found.len() != script.lines.len() + 1 {
            let expected = format!("{} replies", script.lines.len() + 1);
            self.differ(script.lines.len(), expected, format!("{} replies", found.len()));
        }
    }

    fn compare_line(&mut self, place: usize, reply: &Reply, found: &str) {
        self.compared += 1;
        match verdict(reply, found) {
            Verdict::Equal => self.equal += 1,
            Verdict::Allowed(rule) => self.allowed.push(rule),
            Verdict::Different(expected) => self.differ(place, expected, found.to_string()),
        }
    }

    fn differ(&mut self, place: usize, expected: String, found: String) {
        self.difference = Some(Difference {
            line: place + 1,
            expected,
            found,
        });
    }
}

fn line_or_nothing(found: &[String], place: usize) -> String {
    found.get(place).cloned().unwrap_or_else(|| "nothing".to_string())
}

enum Verdict {
    Equal,
    Allowed(Rule),
    Different(String),
}

fn verdict(reply: &Reply, found: &str) -> Verdict {
    match reply {
        Reply::Words(words, rule) if words == found => rule.map_or(Verdict::Equal, Verdict::Allowed),
        Reply::Words(words, _) => Verdict::Different(words.clone()),
        Reply::Pairs(pairs) => verdict_on_pairs(pairs, found),
    }
}

fn verdict_on_pairs(pairs: &[String], found: &str) -> Verdict {
    let expected = if pairs.is_empty() { "empty".to_string() } else { pairs.join(" ") };
    if expected == found {
        return Verdict::Equal;
    }
    let mut sorted: Vec<&str> = pairs.iter().map(String::as_str).collect();
    let mut found_sorted: Vec<&str> = found.split(' ').collect();
    sorted.sort_unstable();
    found_sorted.sort_unstable();
    if sorted == found_sorted {
        return Verdict::Allowed(Rule::OrderOfIter);
    }
    Verdict::Different(expected)
}
