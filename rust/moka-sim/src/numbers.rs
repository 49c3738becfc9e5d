//! Numbers as text.

/// Returns a number with a comma between each three digits.
pub fn grouped(number: u64) -> String {
    let digits = number.to_string();
    let mut out = String::new();
    for (at, digit) in digits.chars().enumerate() {
        if at > 0 && (digits.len() - at) % 3 == 0 {
            out.push(',');
        }
        out.push(digit);
    }
    out
}

/// Returns a part of the whole in percent. It is 0 of a whole of 0.
pub fn share(part: u64, whole: u64) -> f64 {
    if whole == 0 {
        return 0.0;
    }
    100.0 * part as f64 / whole as f64
}

/// Returns a part of the whole as text, in percent with two decimals.
pub fn percent(part: u64, whole: u64) -> String {
    format!("{:.2}%", share(part, whole))
}

#[cfg(test)]
mod tests {
    use super::*;

    #[test]
    fn thousands_have_commas() {
        let texts = [0, 999, 1000, 12_345, 1_234_567].map(grouped);
        assert_eq!(texts, ["0", "999", "1,000", "12,345", "1,234,567"]);
    }

    #[test]
    fn a_share_is_in_percent() {
        assert_eq!(percent(1, 8), "12.50%");
        assert_eq!(percent(0, 0), "0.00%");
    }
}
