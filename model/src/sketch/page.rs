//! What one bench holds after the calls so far, as far as a story shows it.
use super::story::Agreement;
use crate::history::agreement::Count;
use crate::history::message::{number, Block, Log, MOST_BLOCKS};
use crate::proved::{Held, PAGE_LENGTH};
use std::collections::BTreeSet;

#[derive(Clone, PartialEq, Eq, Debug)]
pub struct Page {
    /// The open agreements of which something is heard or a snapshot was taken, the earlier view first.
    pub agreements: Vec<Agreement>,
    /// What an act at the beat last begun would read.
    pub reading: Count,
    /// The decided log that stands.
    pub decided: Log,
    /// Whether the mark is set.
    pub parted: bool,
}

/// The numbers that a set of senders has room for.
const SENDERS: usize = 32;
/// The bytes of one agreement.
const SLOT: usize = 6 + 5 * SENDERS;
/// Where the logs of the odd view's agreement start in the lent lists, and where the decided log stands.
const ODD_LOGS: usize = SENDERS * MOST_BLOCKS;
const DECIDED: usize = 3 * SENDERS * MOST_BLOCKS;

impl Page {
    /// GA v, if it is on the page.
    pub fn agreement(&self, view: u32) -> Option<&Agreement> {
        self.agreements.iter().find(|agreement| agreement.view == view)
    }

    /// The page of a proved bench that last began this beat; `decided` blocks stand, and the mark is not on the page.
    pub fn of_held(held: &Held, beat: u32, decided: usize, parted: bool) -> Page {
        let slots = held.page[..2 * SLOT].chunks_exact(SLOT).zip([0, ODD_LOGS]);
        let mut agreements: Vec<Agreement> = slots.filter_map(|(slot, base)| agreement(held, slot, base)).collect();
        agreements.sort_by_key(|agreement| agreement.view);
        // An act of an odd view reads the agreement of an even one.
        let base = if beat / 4 % 2 == 1 { 0 } else { ODD_LOGS };
        Page {
            agreements,
            reading: reading(held, base),
            decided: log_at(held, DECIDED, decided),
            parted,
        }
    }
}

/// The agreement of a slot whose logs start at `base`, unless there is nothing of it.
fn agreement(held: &Held, slot: &[u8], base: usize) -> Option<Agreement> {
    let (head, rest) = slot.split_at(6);
    let (lengths, sets) = rest.split_at(SENDERS);
    let set = |place: usize| {
        let flags = &sets[place * SENDERS..(place + 1) * SENDERS];
        (0u8..).zip(flags).filter(|(_, &flag)| flag == 1).map(|(sender, _)| sender)
    };
    let log_of = |sender: u8| {
        log_at(
            held,
            base + MOST_BLOCKS * usize::from(sender),
            lengths[usize::from(sender)].into(),
        )
    };
    let agreement = Agreement {
        view: number(&head[..4]) as u32,
        voters: set(0).map(|sender| (sender, log_of(sender))).collect(),
        equivocators: set(1).collect::<BTreeSet<u8>>(),
        one: (head[4] == 1).then(|| set(2).collect()),
        two: (head[5] == 1).then(|| set(3).collect()),
    };
    let is_heard = !agreement.voters.is_empty() || !agreement.equivocators.is_empty();
    (is_heard || agreement.one.is_some() || agreement.two.is_some()).then_some(agreement)
}

/// What an act now would read of the agreement whose logs start at `base`.
fn reading(held: &Held, base: usize) -> Count {
    let [found, sender, blocks, supporters, senders] = held.page[2 * SLOT..PAGE_LENGTH] else {
        return Count::default();
    };
    let place = base + MOST_BLOCKS * usize::from(sender);
    Count {
        log: (found == 1).then(|| log_at(held, place, blocks.into())),
        supporters: supporters.into(),
        senders: senders.into(),
    }
}

/// The log of this many blocks that starts at a place of the lent lists.
fn log_at(held: &Held, place: usize, blocks: usize) -> Log {
    let pairs = held.names[place..place + blocks]
        .iter()
        .zip(&held.counts[place..place + blocks]);
    pairs.map(|(&name, &count)| Block { name, count }).collect()
}
