//! The record of one bench, and its five calls. A refused call changes nothing.
use super::agreement::Agreement;
use super::lists::{are_short, Block, Lists, DECIDED_PLACE};
use super::message::{self, Head, Kind, LogBytes};
use super::proposals::Proposals;
use super::totals::{self, Found};
use super::{Made, Refusal, Word, LAST_BEAT, LAST_VIEW, MOST_BLOCKS, MOST_SENDERS};

/// Its fields are open to anyone, so each call tests them.
#[derive(Clone, Copy, Debug, PartialEq, Eq)]
pub struct Bench {
    pub n: u8,
    pub own: u8,
    /// the last begun beat plus one, zero where none was begun
    pub next: u32,
    pub gathering: bool,
    /// of the even and of the odd view
    pub agreements: [Agreement; 2],
    pub proposals: Proposals,
    /// the blocks of the decided log, and whether a decision conflicted with it
    pub decided: u8,
    pub parted: bool,
}

impl Bench {
    /// Refused: 7, 8.
    pub fn open(n: u8, own: u8, names: &[u64], counts: &[u16], totals: &[u32]) -> Result<Bench, Refusal> {
        if is_out_of_range(n, own) {
            return Err(7);
        }
        if are_short(names, counts, totals) {
            return Err(8);
        }
        let agreements = [Agreement::empty(0); 2];
        let proposals = Proposals::empty(0);
        Ok(Bench {
            n,
            own,
            next: 0,
            gathering: false,
            agreements,
            proposals,
            decided: 0,
            parted: false,
        })
    }

    /// Refused: 9, 8, 9 by the totals, 10, 20.
    #[inline(always)]
    pub fn begin(&mut self, names: &[u64], counts: &[u16], totals: &[u32], beat: u32) -> Result<(), Refusal> {
        self.judge(names, counts, totals)?;
        if beat > LAST_BEAT {
            return Err(10);
        }
        if beat < self.next {
            return Err(20);
        }
        self.forget(beat);
        self.next = beat + 1;
        self.gathering = true;
        Ok(())
    }

    /// Refused: 9, 8, 9 by the totals, 22, 1 to 6, 21.
    pub fn receive(&mut self, names: &mut [u64], counts: &mut [u16], totals: &[u32], bytes: &[u8]) -> Result<Word, Refusal> {
        self.judge(names, counts, totals)?;
        let mut lists = Lists::of(names, counts).ok_or(8)?;
        let beat = self.beat().ok_or(22)?;
        let (head, log) = message::read(self.n, bytes)?;
        let start = 4 * head.view;
        let window = match head.kind {
            Kind::Log => start + 1..=start + 6,
            Kind::Proposal { .. } => start..=start + 1,
        };
        if !window.contains(&beat) {
            return Err(21);
        }
        Ok(self.file(&mut lists, head, &log))
    }

    /// Refused: 9, 8, 9 by the totals, 11, 22.
    pub fn act(
        &mut self,
        names: &mut [u64],
        counts: &mut [u16],
        totals: &mut [u32],
        out: &mut [u8],
        offered: Block,
        priority: u64,
    ) -> Result<Made, Refusal> {
        self.judge(names, counts, totals)?;
        let mut lists = Lists::of(names, counts).ok_or(8)?;
        let totals = totals.first_chunk_mut().ok_or(8)?;
        let out = out.first_chunk_mut().ok_or(11)?;
        let beat = self.beat().ok_or(22)?;
        self.gathering = false;
        Ok(self.act_at(beat, &mut lists, totals, out, offered, priority))
    }

    /// Refused: 9, 8, 9 by the totals, 23.
    pub fn find(&self, names: &[u64], counts: &[u16], totals: &[u32], entry: u32) -> Result<Found, Refusal> {
        self.judge(names, counts, totals)?;
        totals::find(&totals[..self.decided as usize], entry).ok_or(23)
    }

    /// Refusals 9, 8, and 9 by the totals: those of every call on a record, before any other. In line, as Begin is: counted in
    /// instructions, a call costs more than the test where little is decided.
    #[inline(always)]
    fn judge(&self, names: &[u64], counts: &[u16], totals: &[u32]) -> Result<(), Refusal> {
        if self.is_beyond() {
            return Err(9);
        }
        if are_short(names, counts, totals) {
            return Err(8);
        }
        let decided = self.decided as usize;
        if totals::are_unlike(&totals[..decided], &counts[DECIDED_PLACE..][..decided]) {
            return Err(9);
        }
        Ok(())
    }

    /// The beat of the gathering under way.
    fn beat(&self) -> Option<u32> {
        if self.gathering {
            self.next.checked_sub(1)
        } else {
            None
        }
    }

    /// Views no longer open at this beat are forgotten. Views are within their limit, so four times one is a beat.
    fn forget(&mut self, beat: u32) {
        for agreement in &mut self.agreements {
            if 4 * agreement.view + 6 < beat {
                *agreement = Agreement::empty(0);
            }
        }
        if 4 * self.proposals.view + 1 < beat {
            self.proposals = Proposals::empty(0);
        }
    }

    /// Files a message in its view, received or one's own.
    pub(super) fn file(&mut self, lists: &mut Lists, head: Head, log: &LogBytes) -> Word {
        let sender = head.sender as usize;
        match head.kind {
            Kind::Log => self.agreement_of(head.view).file(lists, sender, log),
            Kind::Proposal { priority } => self.proposals_of(head.view).file(lists, sender, log, priority),
        }
    }

    /// The agreement of a view: the one in its slot, or a fresh one there.
    pub(super) fn agreement_of(&mut self, view: u32) -> &mut Agreement {
        let slot = &mut self.agreements[view as usize % 2];
        if slot.view != view {
            *slot = Agreement::empty(view);
        }
        slot
    }

    fn proposals_of(&mut self, view: u32) -> &mut Proposals {
        if self.proposals.view != view {
            self.proposals = Proposals::empty(view);
        }
        &mut self.proposals
    }

    /// Refusal 9 by the record alone.
    fn is_beyond(&self) -> bool {
        let above = u32::MAX.checked_shl(self.n as u32).unwrap_or(0);
        is_out_of_range(self.n, self.own)
            || self.next > LAST_BEAT + 1
            || self.decided as usize > MOST_BLOCKS
            || self.agreements.iter().any(|agreement| agreement.is_beyond(above))
            || self.proposals.is_beyond(above)
            || self.longest_length() as usize > MOST_BLOCKS
    }

    /// Of all 32 places of each array, of whatever sender.
    fn longest_length(&self) -> u8 {
        let [even, odd] = &self.agreements;
        let all = even.lengths.iter().zip(&odd.lengths).zip(&self.proposals.lengths);
        all.fold(0, |most, ((&x, &y), &z)| most.max(x).max(y).max(z))
    }
}

fn is_out_of_range(n: u8, own: u8) -> bool {
    n == 0 || n as usize > MOST_SENDERS || own >= n
}

/// The view of a beat, where there is one.
pub(super) fn view_of(beat: u32) -> Option<u32> {
    Some(beat / 4).filter(|&view| view <= LAST_VIEW)
}
