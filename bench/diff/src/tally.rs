//! Adds up the results of all scripts, and prints the totals.
use crate::compare::{Difference, Outcome};
use crate::original::Met;
use crate::rules::{End, Rule};
use crate::script::Script;

/// A script with a difference that no rule allows.
pub struct Found {
    pub number: u64,
    pub script: Script,
    pub difference: Difference,
}

/// Totals of some scripts.
#[derive(Default)]
pub struct Tally {
    scripts: u64,
    by_model: u64,
    compared: u64,
    equal: u64,
    allowed: [u64; Rule::ALL.len()],
    ended: [u64; End::ALL.len()],
    behind_end: u64,
    met: Met,
}

impl Tally {
    pub fn add(&mut self, outcome: &Outcome) {
        self.scripts += 1;
        self.by_model += u64::from(outcome.by_model);
        self.compared += outcome.compared;
        self.equal += outcome.equal;
        add_met(&mut self.met, &outcome.met);
        for (sum, rule) in self.allowed.iter_mut().zip(Rule::ALL) {
            *sum += outcome.allowed.iter().filter(|allowed| **allowed == rule).count() as u64;
        }
        if outcome.end.is_some() {
            self.behind_end += outcome.behind_end;
        }
        for (sum, end) in self.ended.iter_mut().zip(End::ALL) {
            *sum += u64::from(outcome.end == Some(end));
        }
    }

    pub fn merge(&mut self, other: &Tally) {
        self.scripts += other.scripts;
        self.by_model += other.by_model;
        self.compared += other.compared;
        self.equal += other.equal;
        self.behind_end += other.behind_end;
        add_met(&mut self.met, &other.met);
        add_each(&mut self.allowed, &other.allowed);
        add_each(&mut self.ended, &other.ended);
    }

    pub fn print(&self) {
        println!("scripts                 {}", self.scripts);
        println!("compared with the model {}", self.by_model);
        println!("lines compared          {}", self.compared);
        println!("lines equal             {}", self.equal);
        println!("lines that differ from the original's exactly as a rule says:");
        for (sum, rule) in self.allowed.iter().zip(Rule::ALL) {
            println!("  {sum:>12}  {}", rule.words());
        }
        println!(
            "scripts that a rule ends early, which leaves out {} of their lines in all:",
            self.behind_end
        );
        for (sum, end) in self.ended.iter().zip(End::ALL) {
            println!("  {sum:>12}  {}", end.words());
        }
        self.print_met();
    }

    fn print_met(&self) {
        println!("events on the original:");
        let rows = [
            (self.met.hits, "gets that found their key"),
            (self.met.rejected, "inserts of which the new entry was rejected"),
            (self.met.admitted, "inserts of which the new entry was admitted in place of others"),
            (self.met.trimmed, "other calls that evicted entries above the limit"),
            (self.met.sketches, "sketches turned on"),
            (self.met.by_key, "predicates whose entries left key by key"),
        ];
        for (sum, words) in rows {
            println!("  {sum:>12}  {words}");
        }
    }
}

fn add_met(sums: &mut Met, others: &Met) {
    sums.hits += others.hits;
    sums.rejected += others.rejected;
    sums.admitted += others.admitted;
    sums.trimmed += others.trimmed;
    sums.sketches += others.sketches;
    sums.by_key += others.by_key;
}

fn add_each(sums: &mut [u64], others: &[u64]) {
    for (sum, other) in sums.iter_mut().zip(others) {
        *sum += other;
    }
}

impl Found {
    pub fn print(&self) {
        let Difference { line, expected, found } = &self.difference;
        println!();
        println!(
            "UNEXPLAINED: script {}, shrunk to {} lines, differs in line {line}",
            self.number,
            self.script.lines.len() + 1
        );
        if self.script.has_window() {
            println!("  model:    {expected}");
        } else {
            println!("  original: {expected}");
        }
        println!("  port:     {found}");
        if let Some(initial) = self.script.initial.filter(|_| !self.script.has_window()) {
            println!("  the original's initial capacity: {initial}");
        }
        print!("{}", self.script.words());
    }
}
