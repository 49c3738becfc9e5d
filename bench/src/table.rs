//! Prints tables in Markdown.

/// Prints the head of a table.
pub fn print_head(columns: &[&str]) {
    print_row(columns);
    let rule = "---|".repeat(columns.len());
    println!("|{rule}");
}

pub fn print_row<T: AsRef<str>>(cells: &[T]) {
    let row: Vec<&str> = cells.iter().map(AsRef::as_ref).collect();
    println!("| {} |", row.join(" | "));
}

/// Formats a number with one digit after the point, or as a dash.
pub fn number(value: Option<f64>) -> String {
    value.map_or("-".into(), |value| format!("{value:.1}"))
}

/// Formats a ratio with two digits after the point.
pub fn ratio(part: f64, whole: f64) -> String {
    format!("{:.2}", part / whole)
}
