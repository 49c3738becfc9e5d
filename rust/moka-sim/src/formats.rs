//! Formats of traces: how a line is read.

use crate::fields::{csv_fields, fields, moment, Separator, Unit};
use crate::keys::decimal;
use crate::memory::OutOfMemory;
use crate::trace::Trace;
use std::fmt;

/// The most requests of a trace: their places are numbers of 32 bits, and one of those means none.
const MOST: u64 = u32::MAX as u64 - 1;

/// A format of a trace.
#[derive(Clone, Copy, Debug, PartialEq, Eq)]
pub enum Format {
    /// A key a line.
    Lines,
    /// Columns in a given order.
    Columns,
    /// Columns that a header names.
    Csv,
    /// ARC's: a start block and a count of blocks; further columns are ignored.
    Arc,
    /// LIRS's: a block number a line. Lines `*` are ignored.
    Lirs,
}

/// The column of each part of a request, counted from 0.
#[derive(Clone, Debug, Default, PartialEq, Eq)]
pub struct Columns {
    pub key: usize,
    pub size: Option<usize>,
    pub time: Option<usize>,
}

/// The reason that a line is bad.
#[derive(Clone, Debug, PartialEq, Eq)]
pub enum Reason {
    Long,
    NoKey,
    Unquoted,
    Column {
        name: &'static str,
        number: usize,
        of: usize,
    },
    Number {
        name: &'static str,
        field: String,
    },
    LargeSize(u64),
    LateTime {
        field: String,
    },
    Backwards,
    Blocks,
    Ambiguous,
    Header {
        name: String,
        columns: String,
    },
    Memory,
    Requests,
}

impl From<OutOfMemory> for Reason {
    fn from(_: OutOfMemory) -> Reason {
        Reason::Memory
    }
}

impl fmt::Display for Reason {
    fn fmt(&self, f: &mut fmt::Formatter<'_>) -> fmt::Result {
        match self {
            Reason::Long => f.write_str("it is longer than 65,536 bytes"),
            Reason::NoKey => f.write_str("the key is empty"),
            Reason::Unquoted => f.write_str("a quoted field doesn't end"),
            Reason::Column { name, number, of } => {
                write!(f, "the {name} is in column {number}, and the line has {of}")
            }
            Reason::Number { name, field } => write!(f, "the {name} `{field}` isn't a number"),
            Reason::LargeSize(size) => {
                write!(f, "the size {size} is above {}, the most that an entry weighs", u32::MAX)
            }
            Reason::LateTime { field } => {
                write!(f, "the time `{field}` is above 584 years; --time-unit gives its unit")
            }
            Reason::Backwards => f.write_str("its time is before that of the line above; sort the trace by time"),
            Reason::Blocks => f.write_str("its blocks end above 18446744073709551615"),
            Reason::Ambiguous => f.write_str(
                "it has several columns; name them with --columns, or say --format lines if the whole line is the key",
            ),
            Reason::Header { name, columns } => {
                write!(f, "the header has no column `{name}`; it has {columns}")
            }
            Reason::Memory => f.write_str("the trace doesn't fit into memory"),
            Reason::Requests => write!(f, "the trace has more than {MOST} requests"),
        }
    }
}

/// Parses the lines of a trace, after the header if there is one.
pub struct Parser {
    pub format: Format,
    pub columns: Columns,
    pub unit: Unit,
    separator: Separator,
    /// The time of the first request, and of the last one.
    times: Option<(u64, u64)>,
}

impl Parser {
    /// Creates a parser. The first line, which it doesn't read, shows what separates columns.
    pub fn new(format: Format, columns: Columns, unit: Unit, first: &[u8]) -> Parser {
        Parser {
            format,
            columns,
            unit,
            separator: Separator::of(first),
            times: None,
        }
    }

    /// Appends the requests of a line.
    pub fn read(&mut self, line: &[u8], trace: &mut Trace) -> Result<(), Reason> {
        match self.format {
            Format::Lines => {
                let key = trace.keys.number_of(line)?;
                append(trace, key, 0, 0)
            }
            Format::Columns => {
                let fields: Vec<&[u8]> = fields(line, self.separator).collect();
                self.request(&fields, trace)
            }
            Format::Csv => {
                let fields = csv_fields(line).ok_or(Reason::Unquoted)?;
                let fields: Vec<&[u8]> = fields.iter().map(|field| field.as_ref()).collect();
                self.request(&fields, trace)
            }
            Format::Arc => blocks(line, trace),
            Format::Lirs if line == b"*" => Ok(()),
            Format::Lirs => {
                let key = trace.keys.number_of_number(number("block", line)?)?;
                append(trace, key, 0, 0)
            }
        }
    }

    fn request(&mut self, fields: &[&[u8]], trace: &mut Trace) -> Result<(), Reason> {
        let key = column(fields, "key", self.columns.key)?;
        if key.is_empty() {
            return Err(Reason::NoKey);
        }
        let size = match self.columns.size {
            Some(at) => size(column(fields, "size", at)?)?,
            None => 0,
        };
        let time = match self.columns.time {
            Some(at) => self.since_first(column(fields, "time", at)?)?,
            None => 0,
        };
        let key = trace.keys.number_of(key)?;
        append(trace, key, size, time)
    }

    /// Returns the nanoseconds from the first request to the time in this field.
    fn since_first(&mut self, field: &[u8]) -> Result<u64, Reason> {
        let wrong = |make: fn(String) -> Reason| make(shown(field));
        let time = moment(field, self.unit)
            .ok_or_else(|| {
                wrong(|field| Reason::Number {
                    name: "time",
                    field,
                })
            })?
            .ok_or_else(|| wrong(|field| Reason::LateTime { field }))?;
        let (first, last) = self.times.unwrap_or((time, time));
        if time < last {
            return Err(Reason::Backwards);
        }
        self.times = Some((first, time));
        Ok(time - first)
    }
}

/// Appends a request, if the trace may have one more.
fn append(trace: &mut Trace, key: u32, size: u32, time: u64) -> Result<(), Reason> {
    if trace.len() as u64 >= MOST {
        return Err(Reason::Requests);
    }
    Ok(trace.push(key, size, time)?)
}

/// Appends a request for each block of a line of ARC's format.
fn blocks(line: &[u8], trace: &mut Trace) -> Result<(), Reason> {
    let fields: Vec<&[u8]> = fields(line, Separator::Blank).collect();
    let start = number("start block", column(&fields, "start block", 0)?)?;
    let count = number("count", column(&fields, "count", 1)?)?;
    let end = start.checked_add(count).ok_or(Reason::Blocks)?;
    if count >= MOST {
        return Err(Reason::Requests);
    }
    for block in start..end {
        let key = trace.keys.number_of_number(block)?;
        append(trace, key, 0, 0)?;
    }
    Ok(())
}

fn column<'a>(fields: &[&'a [u8]], name: &'static str, at: usize) -> Result<&'a [u8], Reason> {
    let missing = Reason::Column {
        name,
        number: at + 1,
        of: fields.len(),
    };
    fields.get(at).copied().ok_or(missing)
}

fn number(name: &'static str, field: &[u8]) -> Result<u64, Reason> {
    decimal(field).ok_or_else(|| Reason::Number {
        name,
        field: shown(field),
    })
}

fn size(field: &[u8]) -> Result<u32, Reason> {
    let size = number("size", field)?;
    u32::try_from(size).map_err(|_| Reason::LargeSize(size))
}

/// Returns the start of a field, for a message.
pub fn shown(field: &[u8]) -> String {
    String::from_utf8_lossy(&field[..field.len().min(40)]).into_owned()
}
