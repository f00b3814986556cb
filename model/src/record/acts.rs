//! The acts by the calendar.
use super::agreement::{Agreement, Grade};
use super::bench::{view_of, Bench};
use super::lists::{Block, Lists, Log, DECIDED_PLACE};
use super::message::{self, Head, Kind, MOST_BYTES};
use super::totals::{self, LEAST_TOTALS};
use super::{Made, MOST_BLOCKS};

type Out = [u8; MOST_BYTES];
type Totals = [u32; LEAST_TOTALS];

impl Bench {
    pub(super) fn act_at(
        &mut self,
        beat: u32,
        lists: &mut Lists,
        totals: &mut Totals,
        out: &mut Out,
        offered: Block,
        priority: u64,
    ) -> Made {
        let view = view_of(beat);
        let made = match (beat % 4, view) {
            (0, Some(view)) => self.propose(lists, out, view, offered, priority),
            (1, Some(view)) => self.vote(lists, out, view),
            (2, _) => {
                self.decide(lists, totals, beat / 4);
                if let Some(view) = view {
                    snap(self.agreement_of(view), Grade::Two);
                }
                None
            }
            (3, Some(view)) => {
                snap(self.agreement_of(view), Grade::One);
                None
            }
            _ => None,
        };
        made.unwrap_or(Made::Nothing)
    }

    /// The longest log with the grade in the agreement of the view before, if there was one.
    fn longest(&self, lists: &Lists, view: u32, grade: Grade) -> Option<Log> {
        let before = view.checked_sub(1)?;
        let agreement = &self.agreements[before as usize % 2];
        (agreement.view == before).then(|| agreement.longest(lists, grade)).flatten()
    }

    /// The candidate and the lock: as above, and the empty log where there is no view before.
    fn longest_or_empty(&self, lists: &Lists, view: u32, grade: Grade) -> Option<Log> {
        if view == 0 {
            return Some(Log::EMPTY);
        }
        self.longest(lists, view, grade)
    }

    fn propose(&mut self, lists: &mut Lists, out: &mut Out, view: u32, offered: Block, priority: u64) -> Option<Made> {
        if offered.name == 0 {
            return None;
        }
        let candidate = self
            .longest_or_empty(lists, view, Grade::Zero)
            .filter(|log| log.blocks < MOST_BLOCKS)?;
        let head = Head {
            kind: Kind::Proposal { priority },
            sender: self.own,
            view,
        };
        let blocks = self.make(lists, out, head, candidate, Some(offered));
        Some(Made::Proposal(blocks))
    }

    /// For the best proposal that has the lock as a prefix, else for the lock.
    fn vote(&mut self, lists: &mut Lists, out: &mut Out, view: u32) -> Option<Made> {
        let lock = self.longest_or_empty(lists, view, Grade::One)?;
        let proposal = if self.proposals.view == view {
            self.proposals.best(lists, lock)
        } else {
            None
        };
        let head = Head {
            kind: Kind::Log,
            sender: self.own,
            view,
        };
        let blocks = self.make(lists, out, head, proposal.unwrap_or(lock), None);
        Some(Made::Log(blocks))
    }

    /// Writes a message of the log, and of one more block, and files it as one's own; how many blocks it has.
    fn make(&mut self, lists: &mut Lists, out: &mut Out, head: Head, log: Log, more: Option<Block>) -> u8 {
        let written = message::write(out, head, lists.names_of(log), lists.counts_of(log), more);
        self.file(lists, head, &written);
        written.blocks() as u8
    }

    /// The longest log with grade 2 extends the decided log, and the totals with it, is a prefix of it, or sets the mark.
    fn decide(&mut self, lists: &mut Lists, totals: &mut Totals, view: u32) {
        let Some(log) = self.longest(lists, view, Grade::Two) else {
            return;
        };
        let decided = Log {
            at: DECIDED_PLACE,
            blocks: self.decided as usize,
        };
        if lists.shared(decided, log) < decided.blocks.min(log.blocks) {
            self.parted = true;
        } else if log.blocks > decided.blocks {
            totals::extend(totals, lists.counts_of(log), decided.blocks);
            lists.decide(log);
            self.decided = log.blocks as u8;
        }
    }
}

/// The snapshot that serves the grade is V now.
fn snap(agreement: &mut Agreement, grade: Grade) {
    let snapshot = Some(agreement.voters);
    match grade {
        Grade::Two => agreement.one = snapshot,
        _ => agreement.two = snapshot,
    }
}
