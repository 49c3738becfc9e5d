//! Fields of a line: columns, and moments.

use crate::keys::decimal;
use std::borrow::Cow;

/// What stands between the columns of a trace.
#[derive(Clone, Copy, Debug, PartialEq, Eq)]
pub enum Separator {
    Comma,
    Blank,
}

impl Separator {
    /// Returns the separator of a trace with this line: a comma if it has one.
    pub fn of(line: &[u8]) -> Separator {
        if line.contains(&b',') {
            Separator::Comma
        } else {
            Separator::Blank
        }
    }
}

/// Returns the fields of a line. Blanks around a comma aren't part of a field.
pub fn fields(line: &[u8], separator: Separator) -> impl Iterator<Item = &[u8]> {
    let splits = move |byte: &u8| match separator {
        Separator::Comma => *byte == b',',
        Separator::Blank => byte.is_ascii_whitespace(),
    };
    let keeps = move |field: &&[u8]| separator == Separator::Comma || !field.is_empty();
    line.split(splits).map(trimmed).filter(keeps)
}

/// Returns the fields of a line of CSV, whose fields may stand in quotes. Returns `None` if a quoted
/// field doesn't end.
pub fn csv_fields(line: &[u8]) -> Option<Vec<Cow<'_, [u8]>>> {
    if !line.contains(&b'"') {
        return Some(fields(line, Separator::Comma).map(Cow::Borrowed).collect());
    }
    let mut found = Vec::new();
    let mut rest = line;
    loop {
        let (field, after) = match trimmed(rest).strip_prefix(b"\"") {
            Some(quoted) => quoted_field(quoted)?,
            None => {
                let end = rest
                    .iter()
                    .position(|byte| *byte == b',')
                    .unwrap_or(rest.len());
                (Cow::Borrowed(trimmed(&rest[..end])), &rest[end..])
            }
        };
        found.push(field);
        match trimmed(after) {
            [] => return Some(found),
            [b',', more @ ..] => rest = more,
            _ => return None,
        }
    }
}

/// Returns the text of a field after its opening quote, and what follows its closing one. Two quotes
/// stand for one of the text.
fn quoted_field(line: &[u8]) -> Option<(Cow<'_, [u8]>, &[u8])> {
    let mut text = Vec::new();
    let mut rest = line;
    loop {
        let end = rest.iter().position(|byte| *byte == b'"')?;
        text.extend_from_slice(&rest[..end]);
        match &rest[end + 1..] {
            [b'"', more @ ..] => {
                text.push(b'"');
                rest = more;
            }
            after => return Some((Cow::Owned(text), after)),
        }
    }
}

/// Returns a field without the blanks around it.
pub fn trimmed(field: &[u8]) -> &[u8] {
    let is_text = |byte: &u8| !byte.is_ascii_whitespace();
    match (
        field.iter().position(is_text),
        field.iter().rposition(is_text),
    ) {
        (Some(first), Some(last)) => &field[first..=last],
        _ => &[],
    }
}

/// A unit of time, as nanoseconds.
#[derive(Clone, Copy, Debug, PartialEq, Eq)]
pub struct Unit(pub u64);

impl Unit {
    pub const SECOND: Unit = Unit(1_000_000_000);

    /// Returns the unit of this name.
    pub fn named(name: &str) -> Option<Unit> {
        let units = [
            ("ns", 1),
            ("us", 1_000),
            ("ms", 1_000_000),
            ("s", 1_000_000_000),
            ("m", 60_000_000_000),
            ("h", 3_600_000_000_000),
            ("d", 86_400_000_000_000),
        ];
        units
            .into_iter()
            .find(|(unit, _)| *unit == name)
            .map(|(_, nanoseconds)| Unit(nanoseconds))
    }
}

/// Returns the nanoseconds of a decimal number of units. Returns `None` if the field isn't one, and
/// `Some(None)` if they don't fit in 64 bits. Fractions of a nanosecond are dropped.
pub fn moment(field: &[u8], unit: Unit) -> Option<Option<u64>> {
    let point = field
        .iter()
        .position(|byte| *byte == b'.')
        .unwrap_or(field.len());
    let (whole, fraction) = (&field[..point], field.get(point + 1..).unwrap_or(b"0"));
    if whole.is_empty()
        || fraction.is_empty()
        || !field
            .iter()
            .all(|byte| byte.is_ascii_digit() || *byte == b'.')
    {
        return None;
    }
    let digits = &fraction[..fraction.len().min(18)];
    let part = u128::from(decimal(digits)?);
    let part = part * u128::from(unit.0) / 10u128.pow(digits.len() as u32);
    let whole = decimal(whole).and_then(|whole| whole.checked_mul(unit.0));
    Some(whole.and_then(|whole| whole.checked_add(part as u64)))
}

#[cfg(test)]
mod tests {
    use super::*;

    fn texts(line: &str) -> Option<Vec<String>> {
        let fields = csv_fields(line.as_bytes())?;
        Some(
            fields
                .iter()
                .map(|field| String::from_utf8_lossy(field).into_owned())
                .collect(),
        )
    }

    #[test]
    fn columns_are_split_at_commas_or_blanks() {
        let of = |line: &'static str| {
            let found = fields(line.as_bytes(), Separator::of(line.as_bytes()));
            found
                .map(|field| std::str::from_utf8(field).unwrap())
                .collect::<Vec<_>>()
        };
        assert_eq!(of("a b, 5 ,,7"), ["a b", "5", "", "7"]);
        assert_eq!(of("  a\t5   7 "), ["a", "5", "7"]);
    }

    #[test]
    fn quotes_keep_commas() {
        assert_eq!(
            texts(r#"a,"b,c", "d ""e""",f"#).unwrap(),
            ["a", "b,c", "d \"e\"", "f"]
        );
        assert_eq!(texts(r#""" ,x"#).unwrap(), ["", "x"]);
    }

    #[test]
    fn a_quoted_field_must_end() {
        assert_eq!(texts("a,\"b"), None);
        assert_eq!(texts("\"a\"b,c"), None);
    }

    #[test]
    fn moments_have_units_and_fractions() {
        let at = |field: &str, unit| moment(field.as_bytes(), unit);
        assert_eq!(at("12", Unit::SECOND), Some(Some(12_000_000_000)));
        assert_eq!(at("1.5", Unit(1_000_000)), Some(Some(1_500_000)));
        assert_eq!(at("0.0000000019", Unit::SECOND), Some(Some(1)));
        assert_eq!(
            at("1.0000000000000000000000001", Unit::SECOND),
            Some(Some(1_000_000_000))
        );
        assert_eq!(
            at("18446744073", Unit::SECOND),
            Some(Some(18_446_744_073_000_000_000))
        );
        assert_eq!(at("18446744074", Unit::SECOND), Some(None));
        for other in ["", ".5", "5.", "1.2.3", "-1", "1e3", "x"] {
            assert_eq!(at(other, Unit::SECOND), None, "{other}");
        }
    }
}
