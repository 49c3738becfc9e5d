//! Reads a trace line by line.

use crate::fields::{csv_fields, trimmed, Unit};
use crate::formats::{shown, Columns, Format, Parser, Reason};
use crate::trace::Trace;
use std::borrow::Cow;
use std::fmt;
use std::io::{self, BufRead, Read};

/// The bytes of the longest line.
const LONGEST: u64 = 65_536;

/// How a trace is read.
#[derive(Clone, Debug, PartialEq, Eq)]
pub struct Plan {
    /// The format, or `None` to guess it.
    pub format: Option<Format>,
    /// The names of the columns in order, or for CSV what each part is called in the header.
    pub names: Vec<(Part, String)>,
    /// True if a name was given to a part, so the trace has a header.
    pub has_header: bool,
    pub has_times: bool,
    pub unit: Unit,
}

/// A part of a request. `Other` columns are ignored.
#[derive(Clone, Copy, Debug, PartialEq, Eq)]
pub enum Part {
    Key,
    Size,
    Time,
    Other,
}

/// The error of a trace that can't be read.
#[derive(Debug)]
pub enum ReadError {
    Io(io::Error),
    Compressed(&'static str),
    Empty,
    NoTimes,
    Memory,
    Line { number: u64, reason: Reason },
}

impl fmt::Display for ReadError {
    fn fmt(&self, f: &mut fmt::Formatter<'_>) -> fmt::Result {
        match self {
            ReadError::Io(error) => write!(f, "can't read the trace: {error}"),
            ReadError::Compressed(tool) => {
                write!(f, "the trace is compressed: {tool} FILE | ./moka_sim")
            }
            ReadError::Empty => f.write_str("the trace has no request"),
            ReadError::NoTimes => f.write_str(
                "--ttl needs a column of times, as --columns key,time or key=NAME,time=NAME",
            ),
            ReadError::Memory => f.write_str("there is no memory for a trace"),
            ReadError::Line { number, reason } => write!(f, "line {number} of the trace: {reason}"),
        }
    }
}

/// Reads a trace. Calls `progress` with the number of lines from time to time.
pub fn read(input: impl BufRead, plan: &Plan, progress: impl Fn(u64)) -> Result<Trace, ReadError> {
    let mut lines = Lines {
        input,
        line: Vec::new(),
        number: 0,
    };
    if !lines.next()? {
        return Err(ReadError::Empty);
    }
    lines.refuse_compressed()?;
    let first = lines.text();
    let at_line = |number| move |reason| ReadError::Line { number, reason };
    let format = guessed(plan, first).map_err(at_line(lines.number))?;
    let columns = columns(format, plan, first).map_err(at_line(lines.number))?;
    if plan.has_times && columns.time.is_none() {
        return Err(ReadError::NoTimes);
    }
    let mut trace = Trace::new(columns.size.is_some(), columns.time.is_some())
        .map_err(|_| ReadError::Memory)?;
    let mut parser = Parser::new(format, columns, plan.unit, first);
    let mut is_header = format == Format::Csv;
    loop {
        if !is_header {
            parser
                .read(lines.text(), &mut trace)
                .map_err(at_line(lines.number))?;
        }
        is_header = false;
        if lines.number % 65_536 == 0 {
            progress(lines.number);
        }
        if !lines.next()? {
            break;
        }
    }
    if trace.is_empty() {
        return Err(ReadError::Empty);
    }
    Ok(trace)
}

/// The lines of the input that aren't blank.
struct Lines<R> {
    input: R,
    line: Vec<u8>,
    number: u64,
}

impl<R: BufRead> Lines<R> {
    /// Reads the next line that isn't blank. Returns `false` at the end.
    fn next(&mut self) -> Result<bool, ReadError> {
        loop {
            self.line.clear();
            let mut part = (&mut self.input).take(LONGEST + 1);
            if part
                .read_until(b'\n', &mut self.line)
                .map_err(ReadError::Io)?
                == 0
            {
                return Ok(false);
            }
            self.number += 1;
            if self.line.len() as u64 > LONGEST {
                self.refuse_compressed()?;
                return Err(ReadError::Line {
                    number: self.number,
                    reason: Reason::Long,
                });
            }
            if !self.text().is_empty() {
                return Ok(true);
            }
        }
    }

    /// Returns the line without the blanks around it, and without a byte order mark.
    fn text(&self) -> &[u8] {
        let line = if self.number == 1 {
            self.line.strip_prefix(b"\xEF\xBB\xBF")
        } else {
            None
        };
        trimmed(line.unwrap_or(&self.line))
    }

    /// Refuses an input that begins as compressed files do, by the name of the tool for it.
    fn refuse_compressed(&self) -> Result<(), ReadError> {
        let marks: [(&[u8], &str); 4] = [
            (b"\x1F\x8B", "zcat"),
            (b"\x28\xB5\x2F\xFD", "zstdcat"),
            (b"\xFD7zXZ", "xzcat"),
            (b"BZh", "bzcat"),
        ];
        let found = marks
            .iter()
            .find(|(mark, _)| self.number == 1 && self.line.starts_with(mark));
        match found {
            // A text may begin with these three letters.
            Some((b"BZh", _)) if self.line.is_ascii() => Ok(()),
            Some((_, tool)) => Err(ReadError::Compressed(tool)),
            None => Ok(()),
        }
    }
}

/// Returns the format of the plan, or the one that the first line shows.
fn guessed(plan: &Plan, first: &[u8]) -> Result<Format, Reason> {
    if let Some(format) = plan.format {
        return Ok(format);
    }
    let is_key = |field: &[u8]| field.eq_ignore_ascii_case(b"key");
    if csv_fields(first).is_some_and(|names| names.iter().any(|name| is_key(name))) {
        return Ok(Format::Csv);
    }
    if !plan.names.is_empty() {
        return Ok(Format::Columns);
    }
    let is_alone = !first
        .iter()
        .any(|byte| *byte == b',' || byte.is_ascii_whitespace());
    is_alone.then_some(Format::Lines).ok_or(Reason::Ambiguous)
}

/// Returns the columns of the parts that the plan needs.
fn columns(format: Format, plan: &Plan, first: &[u8]) -> Result<Columns, Reason> {
    let mut columns = match format {
        Format::Csv => header(plan, first)?,
        Format::Columns => {
            let at = |part| plan.names.iter().position(|(named, _)| *named == part);
            Columns {
                key: at(Part::Key).unwrap_or(0),
                size: at(Part::Size),
                time: at(Part::Time),
            }
        }
        _ => Columns::default(),
    };
    if !plan.has_times {
        columns.time = None;
    }
    Ok(columns)
}

/// Finds the parts in the header of a CSV file. A size or a time that isn't named may be missing.
fn header(plan: &Plan, first: &[u8]) -> Result<Columns, Reason> {
    let names = csv_fields(first).ok_or(Reason::Unquoted)?;
    let find = |part: Part, usual: &str| {
        let named = plan.names.iter().find(|(named, _)| *named == part);
        let name = named.map_or(usual, |(_, name)| name);
        let at = names
            .iter()
            .position(|column| column.eq_ignore_ascii_case(name.as_bytes()));
        if at.is_none() && (part == Part::Key || named.is_some()) {
            return Err(Reason::Header {
                name: name.to_owned(),
                columns: listed(&names),
            });
        }
        Ok(at)
    };
    Ok(Columns {
        key: find(Part::Key, "key")?.unwrap_or(0),
        size: find(Part::Size, "size")?,
        time: find(Part::Time, "time")?,
    })
}

/// Lists the names of a header, at most twenty.
fn listed(names: &[Cow<'_, [u8]>]) -> String {
    let most = 20;
    let mut quoted: Vec<String> = names
        .iter()
        .take(most)
        .map(|name| format!("`{}`", shown(name)))
        .collect();
    if names.len() > most {
        quoted.push("..".to_owned());
    }
    quoted.join(", ")
}
