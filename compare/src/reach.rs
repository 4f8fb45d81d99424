//! The rule of reach, read from its words and from nothing of ours: no word, no exponent, at most
//! 15 digits in all, leading zeros counted, and magnitude at most 1,000,000.
use std::cmp::Ordering;

const MOST_DIGITS: usize = 15;
const GREATEST: &str = "1000000";

/// For a text of the grammar. Its magnitude is decided on the digits, where nothing is rounded.
pub fn holds_for_text(text: &str) -> bool {
    let unsigned = text.strip_prefix(['+', '-']).unwrap_or(text);
    // The grammar has letters only in words and exponents.
    if unsigned.contains(|letter: char| letter.is_ascii_alphabetic()) {
        return false;
    }
    let (whole, fraction) = unsigned.split_once('.').unwrap_or((unsigned, ""));
    if whole.len() + fraction.len() > MOST_DIGITS {
        return false;
    }
    let whole = whole.trim_start_matches('0');
    match (whole.len(), whole).cmp(&(GREATEST.len(), GREATEST)) {
        Ordering::Less => true,
        Ordering::Equal => fraction.bytes().all(|digit| digit == b'0'),
        Ordering::Greater => false,
    }
}

/// For a number to be printed.
pub fn holds_for_double(x: f64) -> bool {
    x.abs() <= 1_000_000.0
}
