//! What occurred in a volume, from its lists: a run in which nothing interesting occurs shows nothing.
use super::benches::Volume;
use super::reading::Reading;
use crate::history::bench::{Reply, Word};
use crate::history::message::conflict;
use std::fmt;
use std::ops::AddAssign;

/// Counts over one volume, and sums over many.
#[derive(Clone, Copy, Default, Debug)]
pub struct Facts {
    pub volumes: usize,
    pub calls: usize,
    pub refused: usize,
    pub decisions: usize,
    /// Decisions of more than one block.
    pub long_decisions: usize,
    /// Volumes with an equivocator that some rule-keeper knows.
    pub equivocator: usize,
    /// Volumes with a rule-keeper that acted in one snapshot's beat and not in the other's.
    pub sleeper: usize,
    /// Volumes in which rule-keepers voted for conflicting logs in one view.
    pub split_votes: usize,
    /// Volumes in which a bench holds one story of a sender that another knows for an equivocator.
    pub half_known: usize,
    /// Volumes with a decision of more than one block, an equivocator and such a sleeper.
    pub all_at_once: usize,
}

impl Facts {
    pub fn of(volume: &Volume, lists: &[Reading]) -> Facts {
        let entries = || volume.keepers.iter().flat_map(|keeper| &keeper.list);
        let decided = || entries().filter_map(|entry| entry.decided.as_ref());
        let long_decisions = decided().filter(|log| log.len() > 1).count();
        let equivocator = lists
            .iter()
            .any(|list| list.taken.iter().any(|taken| taken.word == Word::Second));
        let sleeper = lists.iter().any(slept_between_snapshots);
        Facts {
            volumes: 1,
            calls: entries().count(),
            refused: entries().filter(|entry| matches!(entry.reply, Reply::Refused(_))).count(),
            decisions: decided().count(),
            long_decisions,
            equivocator: equivocator.into(),
            sleeper: sleeper.into(),
            split_votes: votes_split(volume).into(),
            half_known: half_known(lists).into(),
            all_at_once: (long_decisions > 0 && equivocator && sleeper).into(),
        }
    }
}

impl AddAssign for Facts {
    fn add_assign(&mut self, more: Facts) {
        self.volumes += more.volumes;
        self.calls += more.calls;
        self.refused += more.refused;
        self.decisions += more.decisions;
        self.long_decisions += more.long_decisions;
        self.equivocator += more.equivocator;
        self.sleeper += more.sleeper;
        self.split_votes += more.split_votes;
        self.half_known += more.half_known;
        self.all_at_once += more.all_at_once;
    }
}

impl fmt::Display for Facts {
    fn fmt(&self, out: &mut fmt::Formatter) -> fmt::Result {
        writeln!(
            out,
            "{} volumes, {} calls, {} of them refused",
            self.volumes, self.calls, self.refused
        )?;
        writeln!(
            out,
            "{} decisions, {} of more than one block",
            self.decisions, self.long_decisions
        )?;
        writeln!(
            out,
            "volumes with an equivocator {}, a sleeper between snapshots {}",
            self.equivocator, self.sleeper
        )?;
        writeln!(
            out,
            "volumes with split votes {}, an equivocator known to some only {}",
            self.split_votes, self.half_known
        )?;
        write!(
            out,
            "volumes with a long decision, an equivocator and a sleeper {}",
            self.all_at_once
        )
    }
}

/// Awake at one of 4v+2 and 4v+3, not at the other, and awake again later.
fn slept_between_snapshots(list: &Reading) -> bool {
    let Some(&last) = list.awake.last() else { return false };
    (0..last / 4).any(|view| list.awake.contains(&(4 * view + 2)) != list.awake.contains(&(4 * view + 3)))
}

fn votes_split(volume: &Volume) -> bool {
    let votes = &volume.votes;
    votes.iter().any(|one| {
        votes
            .iter()
            .any(|other| one.view == other.view && conflict(&one.log, &other.log))
    })
}

/// A second story taken by one bench at a beat by which another had one story only.
fn half_known(lists: &[Reading]) -> bool {
    let heard = |list: &Reading, word: Word, sender: u8, view: u32, by: u32| {
        let same = list
            .taken
            .iter()
            .filter(|taken| taken.message.sender == sender && taken.message.view == view);
        same.filter(|taken| taken.word == word).any(|taken| taken.beat <= by)
    };
    lists.iter().any(|knows| {
        knows.taken.iter().filter(|taken| taken.word == Word::Second).any(|taken| {
            let (sender, view, beat) = (taken.message.sender, taken.message.view, taken.beat);
            let counts =
                |list: &Reading| heard(list, Word::First, sender, view, beat) && !heard(list, Word::Second, sender, view, beat);
            lists.iter().any(counts)
        })
    })
}
