//! What a word that cannot stand somewhere was probably meant for.
use super::fault::quoted;

/// Dashes and minus signs that look like '-' and are none.
const DASHES: [char; 6] = ['\u{2010}', '\u{2011}', '\u{2012}', '\u{2013}', '\u{2014}', '\u{2212}'];

/// A remark on the word found in place of what is expected, if there is anything to remark.
pub fn remark(found: &str, expected: &str) -> String {
    let in_range = |c: char| c.is_ascii_digit() || DASHES.contains(&c);
    if found.contains(DASHES) && found.chars().all(in_range) {
        return " (a range is written with '-')".to_string();
    }
    // Every keyword is all small or all capital letters.
    let others = [found.to_lowercase(), found.to_uppercase()].into_iter();
    let mut others = others.filter(|other| other != found).map(|other| quoted(&other));
    match others.find(|other| expected.contains(other)) {
        Some(meant) => format!(" (capital letters matter: {meant})"),
        None => String::new(),
    }
}
