//! The rows of TRACE.md: one at least for each obligation, and none for anything else.
use crate::finding::Finding;
use crate::markdown::{blocks, cells, Kind};
use std::collections::BTreeSet;

/// The groups of obligations, and how many each has; S1. is of request 1.
const GROUPS: [(&str, usize); 10] = [
    ("D", 4),
    ("M", 6),
    ("A", 6),
    ("B", 15),
    ("T", 12),
    ("X", 13),
    ("P", 5),
    ("F", 8),
    ("G", 5),
    ("S1.", 11),
];

pub fn check(document: &str, text: &str) -> Vec<Finding> {
    let owed: Vec<String> = owed();
    let mut wrong = vec![];
    let mut met = BTreeSet::new();
    for block in blocks(text).iter().filter(|block| block.kind == Kind::Row) {
        let number = cells(&block.text)[0].to_string();
        if !owed.contains(&number) {
            let what = format!("a row for {number}, which is no obligation");
            wrong.push(Finding::new(document, block.line, what));
        }
        met.insert(number);
    }
    let missing = owed.iter().filter(|number| !met.contains(*number));
    let last = text.lines().count();
    wrong.extend(missing.map(|number| Finding::new(document, last, format!("no row for {number}"))));
    wrong
}

fn owed() -> Vec<String> {
    let numbers = GROUPS
        .iter()
        .flat_map(|(group, count)| (1..=*count).map(move |k| format!("{group}{k}")));
    numbers.collect()
}
