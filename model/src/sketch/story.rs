//! A schedule played out: what the lines tell and the picture shows.
use super::post;
use super::schedule::{Fate, Schedule};
use crate::history::bench::{Rules, Word};
use crate::history::message::{Log, Message};
use crate::volume::premises::Breach;
use crate::volume::promise::Broken;
use crate::volume::schedule::Presence;
use std::collections::{BTreeMap, BTreeSet};

pub struct Story {
    pub schedule: Schedule,
    /// By the rules, in the proved code; and then, if the sketch names a mistake, with it, in the model.
    pub runs: Vec<Run>,
}

impl Story {
    /// What the sketch says of messages that nobody sent, by the rules: such lines did nothing.
    pub fn idle(&self) -> Vec<&Fate> {
        let by_rules = self.runs.first();
        let fates = self.schedule.fates.iter();
        fates
            .filter(|fate| by_rules.is_some_and(|run| !post::is_met(fate, run)))
            .collect()
    }
}

/// All rule-keepers under one set of rules.
pub struct Run {
    pub rules: Rules,
    pub benches: Vec<BenchRun>,
    /// Where the premises of demand 3 fail, judged from the lists of calls.
    pub breaches: Vec<Breach>,
    /// Whether a rule-keeper misses a LOG under its own number that it never made and is not owed.
    pub own_missed: bool,
    /// For each view that the premise on the majority asks about: the rule-keepers that count.
    pub counted: Vec<(u32, Vec<u8>)>,
    /// What of the promise is broken: a conflict of two decided logs first.
    pub broken: Vec<Broken>,
}

/// One rule-keeper.
pub struct BenchRun {
    pub own: u8,
    /// Its list of calls as a roll, and what the roll's program prints of it.
    pub roll: Vec<u8>,
    pub text: String,
    /// One for each beat of the schedule.
    pub beats: Vec<BeatRun>,
}

/// One beat at one bench.
pub struct BeatRun {
    pub beat: u32,
    pub presence: Presence,
    /// What was handed over in its gathering, in order.
    pub takes: Vec<Take>,
    /// What is known of the open agreements at the end of the gathering (before the act); empty for one that sleeps.
    pub agreements: Vec<Agreement>,
    pub act: Option<Act>,
}

/// A message handed over.
pub struct Take {
    /// The rule-breaker that handed it over; none where it came from a rule-keeper.
    pub teller: Option<u8>,
    pub message: Message,
    /// First, second or known; or the number of a refusal.
    pub answer: Result<Word, u8>,
}

impl Take {
    /// A LOG answered first or second is passed on to all.
    pub fn is_passed_on(&self) -> bool {
        self.message.kind == crate::history::message::Kind::Log && matches!(self.answer, Ok(Word::First | Word::Second))
    }
}

/// One agreement as one bench has heard it.
#[derive(Clone, PartialEq, Eq, Debug)]
pub struct Agreement {
    pub view: u32,
    /// V: the senders of one log, each with it.
    pub voters: BTreeMap<u8, Log>,
    /// E: the senders of two different logs. S is both.
    pub equivocators: BTreeSet<u8>,
    /// The snapshots, where they were taken.
    pub one: Option<BTreeSet<u8>>,
    pub two: Option<BTreeSet<u8>>,
}

/// What the act of a beat read, made, decided and stored.
pub struct Act {
    pub grade: GradeRead,
    pub made: Option<Message>,
    /// The log decided, even where that changed nothing.
    pub decided: Option<Log>,
    /// The decided log that stands afterwards, and whether the mark is set.
    pub standing: Log,
    pub parted: bool,
    /// The snapshot taken: one or two, of which view, and who is in it.
    pub snapshot: Option<Snapshot>,
}

/// The grade that an act reads.
#[derive(Clone, PartialEq, Eq, Debug)]
pub enum GradeRead {
    /// At 4v+3 none is read.
    NoneNow,
    /// View 0 has no agreement before it.
    ViewZero,
    Read {
        /// 0, 1 or 2.
        grade: u8,
        /// Of GA v.
        view: u32,
        /// Whether its snapshot was taken; true for grade 0, which uses none.
        snapped: bool,
        /// The longest log with the grade.
        log: Option<Log>,
        /// How many support it, or the empty log where none has the grade; and how many senders there are.
        supporters: usize,
        senders: usize,
    },
}

#[derive(Clone, PartialEq, Eq, Debug)]
pub struct Snapshot {
    /// 1 or 2.
    pub number: u8,
    pub view: u32,
    pub senders: BTreeSet<u8>,
}
