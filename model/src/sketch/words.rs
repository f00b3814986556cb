//! Words that lines and pictures share: logs as sketches write them, numbers, and the mistakes.
use crate::history::bench::Rules;
use crate::history::message::Block;

/// A log as sketches write it.
pub fn log(blocks: &[Block]) -> String {
    let blocks: Vec<String> = blocks.iter().map(block).collect();
    format!("[{}]", blocks.join(" "))
}

/// A block's name, and its entries where they are not one.
pub fn block(block: &Block) -> String {
    match block.count {
        1 => block.name.to_string(),
        count => format!("{}*{count}", block.name),
    }
}

/// A number and its noun.
pub fn counted(number: usize, one: &str, several: &str) -> String {
    format!("{number} {}", if number == 1 { one } else { several })
}

/// Ascending numbers one by one; four or more in a row by the first and the last.
pub fn ranges(numbers: impl IntoIterator<Item = usize>) -> Vec<String> {
    let mut rows: Vec<(usize, usize)> = vec![];
    for number in numbers {
        match rows.last_mut() {
            Some((_, last)) if *last + 1 == number => *last = number,
            _ => rows.push((number, number)),
        }
    }
    let row = |&(first, last): &(usize, usize)| match last - first {
        0..=2 => (first..=last).map(|number| number.to_string()).collect(),
        _ => vec![format!("{first}-{last}")],
    };
    rows.iter().flat_map(row).collect()
}

/// A mistake in document 01's words, or the rules.
pub fn rules(rules: Rules) -> &'static str {
    match rules {
        Rules::Paper => "the rules",
        Rules::EquivocatorsUnheard => "equivocators counted out of S as well as V",
        Rules::MajorityOfAll => "a majority of n in place of S",
        Rules::HalfIsEnough => "at least half for more than half",
        Rules::SnapshotsSwapped => "the snapshots of grades 1 and 2 swapped",
        Rules::SnapshotJudges => "support judged by a snapshot, later equivocation forgotten",
        Rules::VoteWithoutLock => "voting for the top proposal without the lock",
    }
}
