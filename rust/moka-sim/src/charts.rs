//! The picture of a report.

use crate::numbers::{grouped, share};
use crate::play::Outcome;
use crate::policies::Setting;
use crate::report::Report;
use crate::svg::{picture, Chart, Line, Mark, Style};
use std::mem::discriminant;

/// The dashes of lines with one colour: of several windows, or of several protected shares.
const DASHES: [&str; 4] = ["8 4", "12 3", "4 4", "1 4"];

/// Returns how the line of a cache is drawn in a picture of these settings. The colours differ in
/// brightness, too.
fn style(setting: Setting, settings: &[Setting]) -> Style {
    let before = settings.iter().take_while(|other| **other != setting);
    let alike = before.filter(|other| discriminant(*other) == discriminant(&setting));
    let dashes = DASHES[alike.count() % DASHES.len()];
    let (colour, dashes, mark) = match setting {
        Setting::Default => ("#1f5fa8", "", Mark::Circle),
        Setting::Window(_) => ("#8c564b", dashes, Mark::Plus),
        Setting::Protected(_) => ("#2e8b57", dashes, Mark::Square),
        Setting::Adaptive => ("#b3005e", "", Mark::Triangle),
        Setting::Segments => ("#7a5cc9", "2 3", Mark::Diamond),
        Setting::Lru => ("#c8741a", "6 3 2 3", Mark::Cross),
        Setting::Belady => ("#555555", "3 3", Mark::Ring),
    };
    Style {
        colour,
        dashes,
        mark,
    }
}

/// Returns the settings of a report, in the order of its table.
fn settings(outcomes: &[Outcome]) -> Vec<Setting> {
    let mut found = Vec::new();
    for outcome in outcomes {
        if !found.contains(&outcome.play.setting) {
            found.push(outcome.play.setting);
        }
    }
    found
}

/// Draws hits by capacity, and at one capacity the hits and the window's share over the trace.
pub fn draw(report: &Report, name: &str) -> String {
    let settings = settings(report.outcomes);
    let legend: Vec<(String, Style)> = settings
        .iter()
        .map(|setting| (setting.name(), style(*setting, &settings)))
        .collect();
    let capacities = report
        .outcomes
        .iter()
        .map(|outcome| outcome.play.rules.capacity);
    let shown = report
        .advice
        .map_or(capacities.max().unwrap_or(0), |advice| advice.capacity);
    let at_shown: Vec<&Outcome> = report
        .outcomes
        .iter()
        .filter(|outcome| outcome.play.rules.capacity == shown)
        .collect();
    let mut charts = vec![
        by_capacity(report, &settings),
        over_time(&at_shown, shown, &settings),
    ];
    let windows = windows(&at_shown, shown, &settings);
    if !windows.lines.is_empty() {
        charts.push(windows);
    }
    let title = format!(
        "{name}: {} requests of {} keys",
        grouped(report.requests),
        grouped(report.keys)
    );
    picture(&title, &legend, &charts)
}

fn by_capacity(report: &Report, settings: &[Setting]) -> Chart {
    let line = |setting: &Setting| Line {
        style: style(*setting, settings),
        points: report
            .outcomes
            .iter()
            .filter(|outcome| outcome.play.setting == *setting)
            .map(|outcome| {
                (
                    outcome.play.rules.capacity as f64,
                    share(outcome.tally.hits, report.requests),
                )
            })
            .collect(),
        has_marks: true,
    };
    Chart {
        title: "Hits by capacity".to_owned(),
        x_label: if report.is_weighed {
            "capacity, bytes"
        } else {
            "capacity, entries"
        },
        y_label: "hits, % of requests",
        is_logarithmic: true,
        lines: settings.iter().map(line).collect(),
    }
}

/// Returns where the parts of a play end, in requests.
fn ends(outcome: &Outcome) -> impl Iterator<Item = f64> + '_ {
    outcome.parts.iter().scan(0, |end, part| {
        *end += part.requests;
        Some(*end as f64)
    })
}

fn over_time(outcomes: &[&Outcome], capacity: u64, settings: &[Setting]) -> Chart {
    let line = |outcome: &&Outcome| {
        let hits = outcome
            .parts
            .iter()
            .map(|part| share(part.hits, part.requests));
        Line {
            style: style(outcome.play.setting, settings),
            points: ends(outcome).zip(hits).collect(),
            has_marks: false,
        }
    };
    Chart {
        title: format!("Hits over the trace, at capacity {}", grouped(capacity)),
        x_label: "requests so far",
        y_label: "hits, % of requests",
        is_logarithmic: false,
        lines: outcomes.iter().map(line).collect(),
    }
}

fn windows(outcomes: &[&Outcome], capacity: u64, settings: &[Setting]) -> Chart {
    let with_windows = outcomes
        .iter()
        .filter(|outcome| outcome.window_share().is_some());
    let line = |outcome: &&Outcome| {
        let shares = (0..outcome.parts.len()).map(|at| outcome.share_at(at).unwrap_or(0.0));
        Line {
            style: style(outcome.play.setting, settings),
            points: ends(outcome).zip(shares).collect(),
            has_marks: false,
        }
    };
    Chart {
        title: format!(
            "The window's share over the trace, at capacity {}",
            grouped(capacity)
        ),
        x_label: "requests so far",
        y_label: "window, % of capacity",
        is_logarithmic: false,
        lines: with_windows.map(line).collect(),
    }
}
