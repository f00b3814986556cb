//! The rolls that the benchmark runs. Only the roll's text is exported from the proved library, so each case is a roll whose
//! events are nearly all of the kind that is measured.
pub mod events;
pub mod grades;
pub mod protocol;
pub mod receives;
pub mod refusals;

use crate::record::Block;

/// A roll under the name it has in the table.
pub struct Case {
    pub name: &'static str,
    pub roll: Vec<u8>,
    pub events: usize,
}

/// A roll, the same roll without the acts that are measured, and how many these are.
pub struct ActsCase {
    pub with: Case,
    pub without: Case,
    pub acts: usize,
}

/// Every case that is timed as a whole.
pub fn whole_rolls() -> Vec<Case> {
    vec![
        receives::first(),
        receives::known(),
        protocol::small_logs(),
        refusals::refused_calls(),
        refusals::damaged(),
    ]
}

/// Every case whose acts are also timed alone.
pub fn rolls_of_acts() -> Vec<ActsCase> {
    vec![grades::alike(), grades::first_block_differs(), grades::last_block_differs()]
}

/// A log of 64 blocks.
fn long_log() -> [Block; 64] {
    std::array::from_fn(|i| Block {
        name: 1_000 + i as u64,
        count: i as u16,
    })
}

/// The lines of a case's text, and how often each of these stands in it.
#[cfg(test)]
fn lines_of(case: &Case) -> Vec<String> {
    let text = crate::record::roll::roll_text(&case.roll);
    String::from_utf8(text).unwrap().lines().map(str::to_owned).collect()
}

#[cfg(test)]
fn count(lines: &[String], line: &str) -> usize {
    lines.iter().filter(|&found| found == line).count()
}

#[cfg(test)]
mod tests {
    use super::*;

    #[test]
    fn each_roll_has_a_line_for_each_event_or_is_damaged() {
        let grades = rolls_of_acts().into_iter().flat_map(|case| [case.with, case.without]);
        for case in whole_rolls().into_iter().chain(grades) {
            let lines = lines_of(&case);
            assert!(case.roll.len() <= 65_536, "{}", case.name);
            assert!(lines.len() == case.events + 1 || lines == ["roll ?"], "{}", case.name);
        }
    }
}
