//! Arguments of the program.

use crate::fields::Unit;
use crate::formats::Format;
use crate::make::Kind;
use crate::policies::Setting;
use crate::reader::{Part, Plan};
use crate::values::{
    capacity, columns, duration, format, list, output, positive, setting, unit, whole,
};
use std::fmt;
use std::thread;

/// What the program is to do.
#[derive(Clone, Debug, PartialEq)]
pub enum Command {
    Help,
    Make {
        kind: Kind,
        count: u64,
        seed: u64,
        is_csv: bool,
    },
    Play(Options),
}

/// How a trace is played.
#[derive(Clone, Debug, PartialEq)]
pub struct Options {
    /// The trace's file, or `None` for standard input.
    pub file: Option<String>,
    pub plan: Plan,
    pub capacities: Vec<Capacity>,
    pub settings: Vec<Setting>,
    pub counts_entries: bool,
    /// The time to live in nanoseconds.
    pub time_to_live: Option<u64>,
    pub output: Output,
    pub svg: Option<String>,
    pub jobs: usize,
}

/// A capacity as it was given.
#[derive(Clone, Copy, Debug, PartialEq)]
pub enum Capacity {
    /// Percents of the distinct keys, or of their bytes.
    Percent(f64),
    Amount(u64),
}

impl Capacity {
    /// Returns the capacity for a trace whose distinct keys count so much, at least 1.
    pub fn of(self, whole: u64) -> u64 {
        match self {
            Capacity::Percent(percent) => ((whole as f64 * percent / 100.0).round() as u64).max(1),
            Capacity::Amount(amount) => amount,
        }
    }
}

#[derive(Clone, Copy, Debug, PartialEq, Eq)]
pub enum Output {
    Table,
    Csv,
    Json,
}

/// The error of wrong arguments.
#[derive(Clone, Debug, PartialEq, Eq)]
pub enum Usage {
    Unknown(String),
    Missing(&'static str),
    Value {
        option: &'static str,
        value: String,
        wanted: &'static str,
    },
    NoKind,
    Kind(String),
    Files(String),
    NoKeyColumn,
    Columns,
    NamedColumns,
}

impl fmt::Display for Usage {
    fn fmt(&self, f: &mut fmt::Formatter<'_>) -> fmt::Result {
        match self {
            Usage::Unknown(option) => write!(f, "there is no option `{option}`"),
            Usage::Missing(option) => write!(f, "{option} needs a value"),
            Usage::Value {
                option,
                value,
                wanted,
            } => write!(f, "{option} `{value}`: it must be {wanted}"),
            Usage::NoKind => write!(f, "make needs a kind of trace: {}", kinds()),
            Usage::Kind(name) => write!(f, "there is no kind of trace `{name}`: {}", kinds()),
            Usage::Files(name) => write!(f, "one trace at a time: `{name}` is too many"),
            Usage::NoKeyColumn => f.write_str("--columns has no column `key`"),
            Usage::Columns => f.write_str("--columns isn't for this format: its columns are fixed"),
            Usage::NamedColumns => {
                f.write_str("--columns has names, and only --format csv has a header")
            }
        }
    }
}

fn kinds() -> String {
    Kind::ALL.map(|(name, _)| name).join(", ")
}

/// Parses the arguments after the program's name.
pub fn parse(arguments: &[String]) -> Result<Command, Usage> {
    if arguments
        .iter()
        .any(|argument| argument == "--help" || argument == "-h")
    {
        return Ok(Command::Help);
    }
    match arguments.split_first() {
        Some((first, rest)) if first == "make" => make(rest),
        _ => play(arguments),
    }
}

/// The arguments that are left. `--option=value` counts as `--option value`.
struct Arguments<'a> {
    left: std::slice::Iter<'a, String>,
    attached: Option<&'a str>,
}

impl<'a> Arguments<'a> {
    fn next(&mut self) -> Result<Option<&'a str>, Usage> {
        if let Some(value) = self.attached {
            return Err(Usage::Unknown(format!("={value}")));
        }
        let Some(argument) = self.left.next() else {
            return Ok(None);
        };
        match argument.split_once('=') {
            Some((option, value)) if option.starts_with("--") => {
                self.attached = Some(value);
                Ok(Some(option))
            }
            _ => Ok(Some(argument)),
        }
    }

    fn value(&mut self, option: &'static str) -> Result<&'a str, Usage> {
        let next = || self.left.next().map(String::as_str);
        self.attached
            .take()
            .or_else(next)
            .ok_or(Usage::Missing(option))
    }
}

fn make(arguments: &[String]) -> Result<Command, Usage> {
    let mut left = Arguments {
        left: arguments.iter(),
        attached: None,
    };
    let (mut kind, mut count, mut seed, mut is_csv) = (None, None, 1, false);
    while let Some(argument) = left.next()? {
        match argument {
            "--csv" => is_csv = true,
            "--seed" => seed = whole("--seed", left.value("--seed")?)?,
            name if name.starts_with('-') => return Err(Usage::Unknown(name.to_owned())),
            name if kind.is_none() => {
                let found = Kind::ALL.into_iter().find(|(known, _)| *known == name);
                kind = Some(found.ok_or_else(|| Usage::Kind(name.to_owned()))?.1);
            }
            number if count.is_none() => count = Some(positive("COUNT", number)?),
            other => return Err(Usage::Files(other.to_owned())),
        }
    }
    let kind = kind.ok_or(Usage::NoKind)?;
    Ok(Command::Make {
        kind,
        count: count.unwrap_or(100_000),
        seed,
        is_csv,
    })
}

fn play(arguments: &[String]) -> Result<Command, Usage> {
    let mut options = defaults();
    let mut left = Arguments {
        left: arguments.iter(),
        attached: None,
    };
    while let Some(argument) = left.next()? {
        match argument {
            "--capacity" => options.capacities = list(left.value("--capacity")?, capacity)?,
            "--settings" => options.settings = list(left.value("--settings")?, setting)?,
            "--columns" => {
                let text = left.value("--columns")?;
                options.plan.names = columns(text)?;
                options.plan.has_header = text.contains('=');
            }
            "--format" => options.plan.format = Some(format(left.value("--format")?)?),
            "--entries" => options.counts_entries = true,
            "--ttl" => options.time_to_live = Some(duration(left.value("--ttl")?)?),
            "--time-unit" => options.plan.unit = unit(left.value("--time-unit")?)?,
            "--output" => options.output = output(left.value("--output")?)?,
            "--svg" => options.svg = Some(left.value("--svg")?.to_owned()),
            "--jobs" => options.jobs = positive("--jobs", left.value("--jobs")?)? as usize,
            "-" => {}
            name if name.starts_with('-') => return Err(Usage::Unknown(name.to_owned())),
            name if options.file.is_none() => options.file = Some(name.to_owned()),
            name => return Err(Usage::Files(name.to_owned())),
        }
    }
    finished(options)
}

fn defaults() -> Options {
    Options {
        file: None,
        plan: Plan {
            format: None,
            names: Vec::new(),
            has_header: false,
            has_times: false,
            unit: Unit::SECOND,
        },
        capacities: [1.0, 2.0, 5.0, 10.0, 20.0, 50.0]
            .map(Capacity::Percent)
            .to_vec(),
        settings: Setting::USUAL.to_vec(),
        counts_entries: false,
        time_to_live: None,
        output: Output::Table,
        svg: None,
        jobs: thread::available_parallelism().map_or(1, |count| count.get()),
    }
}

/// Fills in what follows from several options.
fn finished(mut options: Options) -> Result<Command, Usage> {
    options.plan.has_times = options.time_to_live.is_some();
    let file = options.file.as_deref().unwrap_or("");
    if options.plan.format.is_none() && options.plan.names.is_empty() {
        let of_name = [(".lis", Format::Arc), (".trc", Format::Lirs)];
        options.plan.format = of_name
            .into_iter()
            .find(|(end, _)| file.ends_with(end))
            .map(|(_, format)| format);
    }
    if options.plan.has_header && options.plan.format.is_none() {
        options.plan.format = Some(Format::Csv);
    }
    if options.plan.has_header && options.plan.format == Some(Format::Columns) {
        return Err(Usage::NamedColumns);
    }
    let is_fixed = matches!(
        options.plan.format,
        Some(Format::Lines | Format::Arc | Format::Lirs)
    );
    if is_fixed && !options.plan.names.is_empty() {
        return Err(Usage::Columns);
    }
    let has_key = options
        .plan
        .names
        .iter()
        .any(|(part, _)| *part == Part::Key);
    let needs_key = options.plan.format == Some(Format::Columns) || !options.plan.names.is_empty();
    // A header has a column of keys, though --columns names others only.
    let is_header = options.plan.format == Some(Format::Csv);
    if needs_key && !has_key && !is_header {
        return Err(Usage::NoKeyColumn);
    }
    Ok(Command::Play(options))
}
