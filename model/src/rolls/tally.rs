//! A table of how often each kind of line and each way of being no roll came up, and the rows that must not stay empty: a run
//! that never met a rule has not tried it.
use crate::history::bench::{Call, LAST_BEAT};
use crate::history::message::{Block, MOST_BLOCKS};
use crate::history::roll::{read_roll, NoRoll, Roll};
use std::collections::BTreeMap;
use std::fmt;

#[derive(Default)]
pub struct Tally {
    rows: BTreeMap<String, u64>,
}

/// What a line after it needs to know of the lines before.
#[derive(Default)]
struct Before {
    beat: u32,
    decided: usize,
    parted: bool,
    voted: usize,
}

impl Tally {
    /// Counts a roll and its text, line by line.
    pub fn count(&mut self, roll: &[u8], text: &[u8]) {
        match read_roll(roll) {
            Err(cause) => self.add(no_roll(cause)),
            Ok(roll) => self.count_lines(&roll, &String::from_utf8_lossy(text)),
        }
    }

    /// The rows that must come up and did not.
    pub fn missing(&self) -> Vec<String> {
        required().into_iter().filter(|row| !self.rows.contains_key(row)).collect()
    }

    fn add(&mut self, row: impl Into<String>) {
        *self.rows.entry(row.into()).or_default() += 1;
    }

    fn count_lines(&mut self, roll: &Roll, text: &str) {
        self.add(format!("bench of {:2}", roll.n));
        let mut before = Before::default();
        for (call, line) in roll.calls.iter().zip(text.lines().skip(1)) {
            let words: Vec<&str> = line.split(' ').collect();
            match call {
                Call::Begin(beat) => self.count_begin(*beat, words[2], &mut before),
                Call::Receive(bytes) => self.count_take(bytes, words[1]),
                Call::Act { block, .. } => self.count_act(block, &words[1..], &mut before),
            }
        }
    }

    fn count_begin(&mut self, beat: u32, said: &str, before: &mut Before) {
        self.add(format!("begin {said}"));
        if said == "ok" {
            before.beat = beat;
        }
    }

    fn count_take(&mut self, bytes: &[u8], said: &str) {
        match said {
            "first" | "second" | "known" | "21" => {
                let kind = if bytes[2] == 1 { "LOG" } else { "PROPOSAL" };
                self.add(format!(
                    "take {said}, {kind} {}",
                    if bytes[0] == 64 { "of 64" } else { "under 64" }
                ));
            }
            _ => self.add(format!("take {said}")),
        }
    }

    fn count_act(&mut self, block: &Block, words: &[&str], before: &mut Before) {
        let [made, blocks, decided, ..] = words else {
            return self.add(format!("act {}", words[0]));
        };
        let (blocks, decided): (usize, usize) = (blocks.parse().unwrap_or(0), decided.parse().unwrap_or(0));
        let parted = words.len() == 4;
        self.add(format!("act {made} at 4v+{}", before.beat % 4));
        self.add(format!("act {made}, {}", class(blocks)));
        self.add(format!("decided {decided:2}"));
        self.count_oddities(block, made, decided, parted, before);
        if *made == "log" {
            before.voted = blocks;
        }
        (before.decided, before.parted) = (decided, parted);
    }

    fn count_oddities(&mut self, block: &Block, made: &str, decided: usize, parted: bool, before: &Before) {
        if parted {
            self.add(PARTED);
        }
        if before.parted && decided > before.decided {
            self.add(DECIDED_AFTER);
        }
        if before.beat == LAST_BEAT && decided > before.decided {
            self.add(DECIDED_LAST);
        }
        if before.beat.is_multiple_of(4) && block.name != 0 && made == "none" && before.voted == MOST_BLOCKS {
            self.add(NO_ROOM);
        }
    }
}

const PARTED: &str = "parted";
const DECIDED_AFTER: &str = "parted before, and decided more";
const DECIDED_LAST: &str = "decided more at the last beat";
const NO_ROOM: &str = "a block offered on a log of 64, none made";

impl fmt::Display for Tally {
    fn fmt(&self, out: &mut fmt::Formatter) -> fmt::Result {
        let missing = self.missing();
        let empty = missing.iter().map(|row| (row, &0));
        let rows: BTreeMap<&String, &u64> = self.rows.iter().chain(empty).collect();
        for (row, times) in rows {
            writeln!(out, "{times:>12}  {row}{}", if *times == 0 { "  MISSING" } else { "" })?;
        }
        Ok(())
    }
}

/// The classes of K.
fn class(blocks: usize) -> &'static str {
    match blocks {
        0 => "0 blocks",
        1 => "1 block",
        2..=7 => "2 to 7 blocks",
        8..=31 => "8 to 31 blocks",
        32..=63 => "32 to 63 blocks",
        _ => "64 blocks",
    }
}

fn no_roll(cause: NoRoll) -> String {
    format!("roll ?, {cause:?}")
}

/// Every row that a run must meet.
fn required() -> Vec<String> {
    let causes = NoRoll::ALL.map(no_roll);
    let fixed = [
        "begin ok",
        "begin 10",
        "begin 20",
        "act 22",
        "take 22",
        PARTED,
        DECIDED_AFTER,
        DECIDED_LAST,
        NO_ROOM,
    ];
    let made = [
        "none at 4v+0",
        "none at 4v+1",
        "none at 4v+2",
        "none at 4v+3",
        "proposal at 4v+0",
        "log at 4v+1",
        "none, 0 blocks",
    ];
    let mut rows: Vec<String> = causes.into_iter().chain(fixed.map(String::from)).collect();
    rows.extend(made.map(|made| format!("act {made}")));
    rows.extend((1..=6).map(|number| format!("take {number}")));
    for said in ["first", "second", "known", "21"] {
        let lengths = ["LOG under 64", "LOG of 64", "PROPOSAL under 64", "PROPOSAL of 64"];
        rows.extend(lengths.map(|kind| format!("take {said}, {kind}")));
    }
    rows.extend([0, 1, 2, 8, 32, 64].map(|blocks| format!("act log, {}", class(blocks))));
    rows.extend([1, 2, 8, 32, 64].map(|blocks| format!("act proposal, {}", class(blocks))));
    rows.extend((0..=64).map(|decided| format!("decided {decided:2}")));
    rows.extend((1..=32).map(|n| format!("bench of {n:2}")));
    rows
}

#[cfg(test)]
mod tests {
    use super::*;
    use crate::history::roll::{text, write_roll};

    #[test]
    fn lines_fall_into_their_rows_and_the_rest_is_missing() {
        let mut tally = Tally::default();
        let act = Call::Act {
            block: Block { name: 5, count: 1 },
            priority: 9,
        };
        let roll = write_roll(3, 1, &[act.clone(), Call::Begin(0), act.clone(), Call::Receive(vec![])]);
        tally.count(&roll, &text(&roll));
        tally.count(&[0], b"roll ?\n");
        let rows: Vec<&str> = tally.rows.keys().map(String::as_str).collect();
        let met = [
            "act 22",
            "act proposal at 4v+0",
            "act proposal, 1 block",
            "begin ok",
            "bench of  3",
            "decided  0",
        ];
        assert_eq!(rows, [&met[..], &["roll ?, NoSizes", "take 22"]].concat());
        assert_eq!(tally.missing().len(), required().len() - rows.len());
        assert!(tally.to_string().contains("           0  parted  MISSING\n"));
    }
}
