//! The agreement of a view: who voted for which log, who is an equivocator, and the snapshots.
use super::grading;
use super::lists::{logs_place, Lists, Log};
use super::message::LogBytes;
use super::{Word, LAST_VIEW, MOST_BLOCKS, MOST_SENDERS};

/// The three grades of section "Counting in one agreement".
#[derive(Clone, Copy, Debug, PartialEq, Eq)]
pub enum Grade {
    Zero,
    One,
    Two,
}

/// Sets of senders are masks: bit i is sender i.
#[derive(Clone, Copy, Debug, PartialEq, Eq)]
pub struct Agreement {
    pub view: u32,
    /// the blocks of each sender's log
    pub lengths: [u8; MOST_SENDERS],
    /// V: the senders of one log
    pub voters: u32,
    /// E: the senders of two different logs
    pub equivocators: u32,
    /// the snapshots; one of nobody is not the same as none
    pub one: Option<u32>,
    pub two: Option<u32>,
}

impl Agreement {
    pub fn empty(view: u32) -> Agreement {
        Agreement {
            view,
            lengths: [0; MOST_SENDERS],
            voters: 0,
            equivocators: 0,
            one: None,
            two: None,
        }
    }

    /// S: all senders.
    pub fn senders(&self) -> u32 {
        self.voters | self.equivocators
    }

    /// Beyond the limits of views and sets, where `above` names n and above.
    pub fn is_beyond(&self, above: u32) -> bool {
        let snapped = self.one.unwrap_or(0) | self.two.unwrap_or(0);
        self.view > LAST_VIEW
            || self.senders() & above != 0
            || self.voters & self.equivocators != 0
            || snapped & !self.senders() != 0
    }

    /// Where sender i's log stands.
    fn log_of(&self, sender: usize) -> Log {
        Log {
            at: logs_place(self.view) + MOST_BLOCKS * sender,
            blocks: self.lengths[sender] as usize,
        }
    }

    pub fn file(&mut self, lists: &mut Lists, sender: usize, log: &LogBytes) -> Word {
        let bit = 1 << sender;
        if self.equivocators & bit != 0 {
            return Word::Known;
        }
        let filed = self.log_of(sender);
        if self.voters & bit == 0 {
            lists.file(filed.at, log);
            self.lengths[sender] = log.blocks() as u8;
            self.voters |= bit;
            return Word::First;
        }
        if lists.holds(filed, log) {
            return Word::Known;
        }
        self.voters &= !bit;
        self.equivocators |= bit;
        Word::Second
    }

    /// The longest log with the grade. The empty log has it where more than half of S may support: if it has not, none has.
    pub fn longest(&self, lists: &Lists, grade: Grade) -> Option<Log> {
        let among = match grade {
            Grade::Zero => self.voters,
            Grade::One => self.two?,
            Grade::Two => self.one?,
        };
        let supporters = self.voters & among;
        let majority = self.senders().count_ones() / 2 + 1;
        (supporters.count_ones() >= majority).then(|| {
            let logs = std::array::from_fn(|sender| self.log_of(sender));
            grading::climb(lists, &logs, supporters, majority)
        })
    }
}
