//! Results as a table, as CSV and as JSON.

use crate::advice::Advice;
use crate::numbers::{grouped, share};
use crate::play::Outcome;
use crate::trace::Trace;

/// What is reported of a trace and its plays.
pub struct Report<'a> {
    pub requests: u64,
    pub keys: u64,
    /// The bytes of all requests, if there is a column of sizes.
    pub bytes: Option<u64>,
    /// The bytes of an entry of each key then, unless memory to count them is refused.
    pub footprint: Option<u64>,
    pub is_weighed: bool,
    pub time_to_live: Option<u64>,
    pub outcomes: &'a [Outcome],
    pub advice: Option<Advice>,
}

impl<'a> Report<'a> {
    pub fn new(
        trace: &Trace,
        is_weighed: bool,
        time_to_live: Option<u64>,
        outcomes: &'a [Outcome],
    ) -> Report<'a> {
        let sizes = trace.sizes.as_ref();
        Report {
            requests: trace.len() as u64,
            keys: trace.keys.len() as u64,
            bytes: sizes.map(|sizes| sizes.iter().map(|size| u64::from(*size)).sum()),
            footprint: sizes.and_then(|_| trace.footprint().ok()),
            is_weighed,
            time_to_live,
            outcomes,
            advice: crate::advice::advise(outcomes),
        }
    }

    /// Returns the table, with a row for each cache and a blank line between capacities.
    pub fn table(&self) -> String {
        let mut out = format!(
            "{} requests of {} keys",
            grouped(self.requests),
            grouped(self.keys)
        );
        if let Some(bytes) = self.bytes {
            out += &format!(", {} bytes", grouped(bytes));
        }
        if let Some(footprint) = self.footprint {
            out += &format!(", all keys {} bytes", grouped(footprint));
        }
        let unit = if self.is_weighed { "bytes" } else { "entries" };
        out += &format!("; capacities in {unit}\n\n");
        let mut rows = vec![self.heads()];
        rows.extend(self.outcomes.iter().map(|outcome| self.row(outcome)));
        let widths: Vec<usize> = (0..rows[0].len())
            .map(|at| rows.iter().map(|row| row[at].len()).max().unwrap_or(0))
            .collect();
        for (at, row) in rows.iter().enumerate() {
            if at > 1 && row[0] != rows[at - 1][0] {
                out.push('\n');
            }
            let cells = row.iter().zip(&widths).enumerate();
            let cells = cells.map(|(column, (cell, width))| match column {
                1 => format!("{cell:<width$}"),
                _ => format!("{cell:>width$}"),
            });
            out += cells.collect::<Vec<_>>().join("  ").trim_end();
            out.push('\n');
        }
        out
    }

    fn heads(&self) -> Vec<String> {
        let mut heads = vec!["capacity", "settings", "hits %"];
        if self.bytes.is_some() {
            heads.push("bytes %");
        }
        heads.extend(["evictions", "rejections"]);
        if self.time_to_live.is_some() {
            heads.push("expirations");
        }
        heads.push("window %");
        heads.into_iter().map(str::to_owned).collect()
    }

    fn row(&self, outcome: &Outcome) -> Vec<String> {
        let count = |count: Option<u64>| count.map_or("-".to_owned(), grouped);
        let mut row = vec![
            grouped(outcome.play.rules.capacity),
            outcome.play.setting.name(),
            format!("{:.2}", share(outcome.tally.hits, self.requests)),
        ];
        if let Some(bytes) = self.bytes {
            row.push(format!("{:.2}", share(outcome.tally.hit_bytes, bytes)));
        }
        row.extend([
            count(outcome.counts.evictions),
            count(outcome.counts.rejections),
        ]);
        if self.time_to_live.is_some() {
            row.push(count(outcome.counts.expirations));
        }
        row.push(
            outcome
                .window_share()
                .map_or("-".to_owned(), |share| format!("{share:.1}")),
        );
        row
    }

    /// Returns lines of CSV, with a header.
    pub fn csv(&self) -> String {
        let mut out = "capacity,settings,requests,hits,bytes,hit_bytes,evictions,rejections,expirations,window_percent\n".to_owned();
        for outcome in self.outcomes {
            let count = |count: Option<u64>| count.map_or(String::new(), |count| count.to_string());
            let row = [
                outcome.play.rules.capacity.to_string(),
                outcome.play.setting.name(),
                self.requests.to_string(),
                outcome.tally.hits.to_string(),
                count(self.bytes),
                count(self.bytes.map(|_| outcome.tally.hit_bytes)),
                count(outcome.counts.evictions),
                count(outcome.counts.rejections),
                count(outcome.counts.expirations),
                outcome
                    .window_share()
                    .map_or(String::new(), |share| format!("{share:.2}")),
            ];
            out += &row.join(",");
            out.push('\n');
        }
        out
    }

    /// Returns an object of JSON, with the hits of each part of the trace.
    pub fn json(&self) -> String {
        let results: Vec<String> = self
            .outcomes
            .iter()
            .map(|outcome| self.result(outcome))
            .collect();
        let advice = self.advice.map_or("null".to_owned(), |advice| {
            format!(
                "{{\"capacity\": {}, \"settings\": \"{}\", \"hits\": {}}}",
                advice.capacity,
                advice.setting.name(),
                advice.hits
            )
        });
        format!(
            "{{\n\"requests\": {},\n\"keys\": {},\n\"bytes\": {},\n\"capacities_in\": \"{}\",\n\"time_to_live_ns\": {},\n\
             \"results\": [\n{}\n],\n\"advice\": {advice}\n}}\n",
            self.requests,
            self.keys,
            or_null(self.bytes),
            if self.is_weighed { "bytes" } else { "entries" },
            or_null(self.time_to_live),
            results.join(",\n")
        )
    }

    fn result(&self, outcome: &Outcome) -> String {
        let window =
            |share: Option<f64>| share.map_or("null".to_owned(), |share| format!("{share:.2}"));
        let parts: Vec<String> = outcome
            .parts
            .iter()
            .enumerate()
            .map(|(at, part)| {
                format!(
                    "{{\"requests\": {}, \"hits\": {}, \"window_percent\": {}}}",
                    part.requests,
                    part.hits,
                    window(outcome.share_at(at))
                )
            })
            .collect();
        format!(
            "{{\"capacity\": {}, \"settings\": \"{}\", \"hits\": {}, \"hit_bytes\": {}, \"evictions\": {}, \
             \"rejections\": {}, \"expirations\": {}, \"window_percent\": {}, \"over_time\": [{}]}}",
            outcome.play.rules.capacity,
            outcome.play.setting.name(),
            outcome.tally.hits,
            or_null(self.bytes.map(|_| outcome.tally.hit_bytes)),
            or_null(outcome.counts.evictions),
            or_null(outcome.counts.rejections),
            or_null(outcome.counts.expirations),
            window(outcome.window_share()),
            parts.join(", ")
        )
    }
}

fn or_null(count: Option<u64>) -> String {
    count.map_or("null".to_owned(), |count| count.to_string())
}
