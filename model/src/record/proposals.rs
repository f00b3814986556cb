//! The proposals of a view, and the vote among them.
use super::lists::{Lists, Log, PROPOSALS_PLACE};
use super::message::LogBytes;
use super::{senders, Word, LAST_VIEW, MOST_BLOCKS, MOST_SENDERS};

#[derive(Clone, Copy, Debug, PartialEq, Eq)]
pub struct Proposals {
    pub view: u32,
    pub lengths: [u8; MOST_SENDERS],
    pub priorities: [u64; MOST_SENDERS],
    /// the senders of a proposal, and those whose proposals are set aside
    pub filed: u32,
    pub aside: u32,
}

impl Proposals {
    pub fn empty(view: u32) -> Proposals {
        Proposals {
            view,
            lengths: [0; MOST_SENDERS],
            priorities: [0; MOST_SENDERS],
            filed: 0,
            aside: 0,
        }
    }

    /// Beyond the limits of views and sets, where `above` names n and above.
    pub fn is_beyond(&self, above: u32) -> bool {
        self.view > LAST_VIEW || (self.filed | self.aside) & above != 0
    }

    fn log_of(&self, sender: usize) -> Log {
        Log {
            at: PROPOSALS_PLACE + MOST_BLOCKS * sender,
            blocks: self.lengths[sender] as usize,
        }
    }

    pub fn file(&mut self, lists: &mut Lists, sender: usize, log: &LogBytes, priority: u64) -> Word {
        let bit = 1 << sender;
        if self.aside & bit != 0 {
            return Word::Known;
        }
        let filed = self.log_of(sender);
        if self.filed & bit == 0 {
            lists.file(filed.at, log);
            self.lengths[sender] = log.blocks() as u8;
            self.priorities[sender] = priority;
            self.filed |= bit;
            return Word::First;
        }
        if self.priorities[sender] == priority && lists.holds(filed, log) {
            return Word::Known;
        }
        self.aside |= bit;
        Word::Second
    }

    /// The proposal of highest priority that has the lock as a prefix, the lower number on a tie. Priorities are compared
    /// first: only the log of one that would win is looked at.
    pub fn best(&self, lists: &Lists, lock: Log) -> Option<Log> {
        let mut best: Option<(u64, Log)> = None;
        for i in senders(self.filed & !self.aside) {
            let priority = self.priorities[i];
            let log = self.log_of(i);
            if best.is_none_or(|(highest, _)| priority > highest) && lists.is_prefix(lock, log) {
                best = Some((priority, log));
            }
        }
        best.map(|(_, log)| log)
    }
}
