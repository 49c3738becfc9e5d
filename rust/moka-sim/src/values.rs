//! Values of options.

use crate::args::{Capacity, Output, Usage};
use crate::fields::{moment, Unit};
use crate::formats::Format;
use crate::policies::Setting;
use crate::reader::Part;

/// Parses the items of a list with commas, each once.
pub fn list<T: PartialEq>(
    text: &str,
    parse: fn(&str) -> Result<T, Usage>,
) -> Result<Vec<T>, Usage> {
    let mut items = Vec::new();
    for item in text.split(',') {
        let item = parse(item.trim())?;
        if !items.contains(&item) {
            items.push(item);
        }
    }
    Ok(items)
}

pub fn columns(text: &str) -> Result<Vec<(Part, String)>, Usage> {
    let mut found: Vec<(Part, String)> = Vec::new();
    for item in text.split([',', ' ']).filter(|item| !item.is_empty()) {
        let (part, name) = item.split_once('=').unwrap_or((item, item));
        let wrong = || Usage::Value {
            option: "--columns",
            value: item.to_owned(),
            wanted: "key, size, time or -, each once; key=NAME if a header names the columns",
        };
        let part = match part {
            "key" => Part::Key,
            "size" => Part::Size,
            "time" => Part::Time,
            "-" => Part::Other,
            _ => return Err(wrong()),
        };
        if part != Part::Other && found.iter().any(|(other, _)| *other == part) {
            return Err(wrong());
        }
        found.push((part, name.to_owned()));
    }
    Ok(found)
}

pub fn setting(name: &str) -> Result<Setting, Usage> {
    let wanted =
        "of default, windowN, protectedN, adaptive, segments, lru, belady, with N from 0 to 100";
    Setting::named(name).ok_or_else(|| Usage::Value {
        option: "--settings",
        value: name.to_owned(),
        wanted,
    })
}

pub fn format(name: &str) -> Result<Format, Usage> {
    let formats = [
        ("lines", Format::Lines),
        ("columns", Format::Columns),
        ("csv", Format::Csv),
        ("arc", Format::Arc),
        ("lirs", Format::Lirs),
    ];
    let found = formats
        .into_iter()
        .find(|(known, _)| *known == name)
        .map(|(_, format)| format);
    let wanted = "lines, columns, csv, arc or lirs";
    found.ok_or_else(|| Usage::Value {
        option: "--format",
        value: name.to_owned(),
        wanted,
    })
}

pub fn output(name: &str) -> Result<Output, Usage> {
    let outputs = [
        ("table", Output::Table),
        ("csv", Output::Csv),
        ("json", Output::Json),
    ];
    let found = outputs
        .into_iter()
        .find(|(known, _)| *known == name)
        .map(|(_, output)| output);
    found.ok_or_else(|| Usage::Value {
        option: "--output",
        value: name.to_owned(),
        wanted: "table, csv or json",
    })
}

pub fn unit(name: &str) -> Result<Unit, Usage> {
    let wanted = "ns, us, ms, s, m, h or d";
    Unit::named(name).ok_or_else(|| Usage::Value {
        option: "--time-unit",
        value: name.to_owned(),
        wanted,
    })
}

/// Parses a capacity: percents, or a number with a unit of bytes or without.
pub fn capacity(text: &str) -> Result<Capacity, Usage> {
    let wanted = "above 0, as 5000, 2.5% or 10MB";
    let wrong = || Usage::Value {
        option: "--capacity",
        value: text.to_owned(),
        wanted,
    };
    if let Some(percent) = text.strip_suffix('%') {
        let percent: f64 = percent.trim().parse().map_err(|_| wrong())?;
        return if percent > 0.0 && percent.is_finite() {
            Ok(Capacity::Percent(percent))
        } else {
            Err(wrong())
        };
    }
    let amount = scaled(text).filter(|amount| *amount > 0);
    amount.map(Capacity::Amount).ok_or_else(wrong)
}

/// Returns a whole number with a unit: k, M, G, or KiB, MiB, GiB, each with B or without.
fn scaled(text: &str) -> Option<u64> {
    let end = text
        .find(|letter: char| !letter.is_ascii_digit())
        .unwrap_or(text.len());
    let number: u64 = text[..end].parse().ok()?;
    let scale = match text[end..]
        .trim()
        .to_ascii_lowercase()
        .trim_end_matches('b')
    {
        "" => 1,
        "k" => 1_000,
        "m" => 1_000_000,
        "g" => 1_000_000_000,
        "ki" => 1 << 10,
        "mi" => 1 << 20,
        "gi" => 1 << 30,
        _ => return None,
    };
    number.checked_mul(scale)
}

pub fn positive(option: &'static str, text: &str) -> Result<u64, Usage> {
    let wanted = "a whole number above 0";
    let found = scaled(text).filter(|number| *number > 0);
    found.ok_or_else(|| Usage::Value {
        option,
        value: text.to_owned(),
        wanted,
    })
}

pub fn whole(option: &'static str, text: &str) -> Result<u64, Usage> {
    text.parse().map_err(|_| Usage::Value {
        option,
        value: text.to_owned(),
        wanted: "a whole number",
    })
}

/// Parses a duration in nanoseconds. The cache refuses one of 0, and one of 2^64 - 1.
pub fn duration(text: &str) -> Result<u64, Usage> {
    let end = text
        .find(|letter: char| letter.is_ascii_alphabetic())
        .unwrap_or(text.len());
    let found =
        Unit::named(&text[end..]).and_then(|unit| moment(text[..end].trim().as_bytes(), unit)?);
    let found = found.filter(|nanoseconds| (1..u64::MAX).contains(nanoseconds));
    let wanted = "a time above 0 and below 584 years, as 30s, 5m or 100ms";
    found.ok_or_else(|| Usage::Value {
        option: "--ttl",
        value: text.to_owned(),
        wanted,
    })
}
