//! Shortens a script that differs, by dropping lines as long as it still differs.
use crate::compare::{outcome, Difference, Sides};
use crate::script::{Line, Script};

/// Maximum number of shorter scripts that are tried.
const TRIES: u64 = 2000;

/// Drops lines, and sets the moments of the others to 0, while an unexplained difference stays.
pub fn shrunk(script: &Script, difference: &Difference, sides: &Sides) -> (Script, Difference) {
    let mut shrinking = Shrinking {
        sides,
        script: script.clone(),
        difference: difference.clone(),
        tries: TRIES,
    };
    shrinking.cut_behind_difference();
    let mut step = shrinking.script.lines.len();
    while step > 0 {
        let is_shorter = shrinking.drop_by(step);
        // A step of 1 is repeated until no line can be dropped.
        if step > 1 || !is_shorter {
            step /= 2;
        }
    }
    shrinking.forget_moments();
    (shrinking.script, shrinking.difference)
}

struct Shrinking<'a> {
    sides: &'a Sides,
    script: Script,
    difference: Difference,
    tries: u64,
}

impl Shrinking<'_> {
    /// Replaces the script by this one if it differs and a try is left. Returns `true` if so.
    fn take(&mut self, script: Script) -> bool {
        if self.tries == 0 {
            return false;
        }
        self.tries -= 1;
        let Some(difference) = outcome(&script, self.sides).difference else {
            return false;
        };
        self.script = script;
        self.difference = difference;
        true
    }

    fn take_lines(&mut self, lines: Vec<Line>) -> bool {
        let script = Script {
            lines,
            ..self.script.clone()
        };
        self.take(script)
    }

    fn cut_behind_difference(&mut self) {
        // Line 1 has the script's settings, so line n has the call with index n - 2.
        let kept = self.difference.line.saturating_sub(1);
        if 0 < kept && kept < self.script.lines.len() {
            let lines = self.script.lines[..kept].to_vec();
            self.take_lines(lines);
        }
    }

    /// Drops `step` lines at a time, if the script differs without them. Returns `true` if some were dropped.
    fn drop_by(&mut self, step: usize) -> bool {
        let mut is_shorter = false;
        let mut from = 0;
        while from < self.script.lines.len() {
            let mut lines = self.script.lines.clone();
            lines.drain(from..(from + step).min(lines.len()));
            if self.take_lines(lines) {
                is_shorter = true;
            } else {
                from += step;
            }
        }
        is_shorter
    }

    fn forget_moments(&mut self) {
        let mut lines = self.script.lines.clone();
        lines.iter_mut().for_each(|line| line.moment = 0);
        self.take_lines(lines);
    }
}
