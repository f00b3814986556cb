//! A list of calls that still fits a roll, and the blocks, logs and priorities that all generators draw on: few of each, so
//! that logs agree often, and equal names stand with other counts.
use super::random::Random;
use crate::history::bench::Call;
use crate::history::message::{Block, Log, MOST_BLOCKS};
use crate::history::roll::{write_roll, MOST_EVENTS, MOST_ROLL};

/// Calls on bench `own` of `n`, never more than a roll holds.
pub struct Draft {
    pub n: u8,
    pub own: u8,
    calls: Vec<Call>,
    bytes: usize,
    full: bool,
}

impl Draft {
    pub fn new(n: u8, own: u8) -> Draft {
        Draft {
            n,
            own,
            calls: vec![],
            bytes: 4,
            full: false,
        }
    }

    /// Adds a call if it fits; a call that does not ends the list.
    pub fn push(&mut self, call: Call) -> bool {
        let body = match &call {
            Call::Begin(_) => 4,
            Call::Receive(bytes) => bytes.len(),
            Call::Act { .. } => 18,
        };
        let bytes = self.bytes + 4 + body;
        self.full |= bytes > MOST_ROLL || self.calls.len() == MOST_EVENTS;
        if !self.full {
            self.bytes = bytes;
            self.calls.push(call);
        }
        !self.full
    }

    /// Whether a call was turned away.
    pub fn is_full(&self) -> bool {
        self.full
    }

    pub fn roll(&self) -> Vec<u8> {
        write_roll(self.n, self.own, &self.calls)
    }
}

/// A number of benches, mostly small, and an own number.
pub fn numbers(random: &mut Random) -> (u8, u8) {
    let n = if random.percent(60) {
        random.from_to(1, 6)
    } else {
        random.from_to(1, 32)
    };
    (n as u8, random.below(n) as u8)
}

/// A block; some names and counts differ in their high bytes alone.
pub fn block(random: &mut Random) -> Block {
    let far = [u64::MAX, 1 << 63, 1 << 32 | 1, 1 << 8 | 1];
    let name = if random.percent(5) {
        random.pick(&far)
    } else {
        random.from_to(1, 4) as u64
    };
    Block {
        name,
        count: random.pick(&[1, 1, 1, 1, 1, 0, 2, 257, u16::MAX]),
    }
}

/// A block to offer, or none.
pub fn offer(random: &mut Random, percent: usize) -> Block {
    if random.percent(percent) {
        block(random)
    } else {
        Block {
            name: 0,
            count: random.pick(&[0, 1]),
        }
    }
}

pub fn log(random: &mut Random, most: usize) -> Log {
    (0..random.below(most + 1)).map(|_| block(random)).collect()
}

/// A priority; ties are frequent.
pub fn priority(random: &mut Random) -> u64 {
    random.pick(&[0, 1, 2, 3, 3, 1 << 8, 1 << 32, 1 << 63, u64::MAX])
}

/// The log with one more block, or itself at 64.
pub fn extended(random: &mut Random, log: &[Block]) -> Log {
    let mut longer = log.to_vec();
    if longer.len() < MOST_BLOCKS {
        longer.push(block(random));
    }
    longer
}

/// A log that leaves this one somewhere, at times by the high bytes of one block alone.
pub fn branched(random: &mut Random, log: &[Block]) -> Log {
    let kept = random.below(log.len() + 1);
    if kept < log.len() && random.percent(30) {
        let mut other = log.to_vec();
        other[kept] = lookalike(random, log[kept]);
        return other;
    }
    let rest = if random.percent(50) {
        1
    } else {
        log.len().saturating_sub(kept).max(1)
    };
    let mut other = log[..kept].to_vec();
    other.extend((0..rest).map(|_| block(random)));
    other.truncate(MOST_BLOCKS);
    other
}

/// A block that is the same to whoever reads half of it.
fn lookalike(random: &mut Random, block: Block) -> Block {
    match random.below(3) {
        0 => Block {
            name: block.name ^ 1 << 32,
            ..block
        },
        1 => Block {
            name: block.name ^ 1 << 63,
            ..block
        },
        _ => Block {
            count: block.count ^ 1 << 8,
            ..block
        },
    }
}

/// A prefix of this log.
pub fn shortened(random: &mut Random, log: &[Block]) -> Log {
    log[..random.below(log.len() + 1)].to_vec()
}
