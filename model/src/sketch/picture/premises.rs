//! Where the premises fail: a mark in the cell or column concerned, and a note of the same number below the rows. And who
//! counts towards each view's majority.
use super::mark::{Cell, Here, Mark, Sign};
use super::words::{counted, list_within, set, set_within};
use crate::sketch::failures::{failures, Failure, Place};
use crate::sketch::schedule::Schedule;
use crate::sketch::story::Run;
use crate::volume::premises::Premise;

/// A failure of a premise, with its number.
pub struct Note {
    number: usize,
    failure: Failure,
}

/// The failures of a run in their order, numbered from 1 on.
pub fn notes(schedule: &Schedule, run: &Run) -> Vec<Note> {
    let note = |(number, failure)| Note { number, failure };
    (1..).zip(failures(schedule, run)).map(note).collect()
}

impl Note {
    /// The note below the rows.
    pub fn words(&self) -> String {
        let premise = match self.failure.premise {
            Premise::Delivery => "delivery",
            Premise::Numbers => "numbers",
            Premise::Majority => "the majority",
        };
        format!("BREACH {} of the premise on {premise}: {}", self.number, self.failure.words)
    }

    /// Whether it concerns this bench at this beat.
    fn is_at(&self, here: Here) -> bool {
        matches!(&self.failure.place, Place::Benches { benches, beat } if *beat == here.beat && benches.contains(&here.own))
    }

    /// Whether it is of the majority and shown at this beat: that of the vote, or the nearest that the schedule has.
    fn is_of_all_at(&self, schedule: &Schedule, beat: u32) -> bool {
        let Place::Views { first, last } = self.failure.place else {
            return false;
        };
        let (earliest, latest) = (vote_beat(first), vote_beat(last));
        let within = beat % 4 == 1 && (earliest..=latest).contains(&beat);
        let before = beat == schedule.first_beat && earliest <= beat;
        let after = beat == schedule.last_beat && latest >= beat;
        within || before || after
    }
}

fn vote_beat(view: u32) -> u32 {
    view.saturating_mul(4).saturating_add(1)
}

/// The mark of the breaches that concern one bench at a beat.
pub fn at_bench(notes: &[Note], here: Here) -> Option<Mark> {
    mark(notes, |note| note.is_at(here))
}

fn mark(notes: &[Note], concerns: impl Fn(&Note) -> bool) -> Option<Mark> {
    let (numbers, words): (Vec<usize>, Vec<String>) = notes
        .iter()
        .filter(|note| concerns(note))
        .map(|note| (note.number, note.words()))
        .unzip();
    const BREACH: &str = "BREACH ";
    let list = list_within(numbers.iter().copied(), Sign::Breach.room() - BREACH.len());
    (!numbers.is_empty()).then(|| Mark::new(Sign::Breach, &format!("{BREACH}{list}"), words.join("; ")))
}

/// The row on the majority: who counts in each view, at the beat of its vote, and where they are too few.
pub fn majority(schedule: &Schedule, run: &Run, notes: &[Note], columns: usize) -> Vec<Cell> {
    let breakers = usize::from(schedule.n).saturating_sub(schedule.keepers.len());
    let cell = |column: usize| {
        let beat = schedule.first_beat + column as u32;
        let shown = |view: u32| vote_beat(view).min(schedule.last_beat) == beat;
        let of_view = |(view, who): &(u32, Vec<u8>)| {
            let against = counted(breakers, "rule-breaker", "rule-breakers");
            let whole = format!(
                "view {view}: {} rule-keepers count, {}, against {against}",
                who.len(),
                set(who)
            );
            let before = format!("{} to {breakers}: ", who.len());
            let who = set_within(who, Sign::Counted.room().saturating_sub(before.len()));
            Mark::new(Sign::Counted, &format!("{before}{who}"), whole)
        };
        let counted = run.counted.iter().filter(|(view, _)| shown(*view)).map(of_view);
        counted.chain(mark(notes, |note| note.is_of_all_at(schedule, beat))).collect()
    };
    (0..columns).map(cell).collect()
}
