//! What a rule-keeper learns in its gathering of a beat: equivocators, proposals set aside, what it refuses.
use super::mark::{Cell, Here, Mark, Sign};
use super::words::{message, of_view, set, set_within};
use crate::history::bench::Word;
use crate::history::message::Kind;
use crate::sketch::story::{BeatRun, Take};
use std::collections::{BTreeMap, BTreeSet};

/// The equivocators that a row has shown so far, by views.
pub type Shown = BTreeMap<u32, BTreeSet<u8>>;

/// The marks of a gathering.
pub fn marks(here: Here, beat: &BeatRun, shown: &mut Shown) -> Cell {
    let mut cell = Cell::new();
    for (view, senders) in equivocators(beat, shown) {
        let (names, of_view) = (set(&senders), of_view(view, here.beat));
        let whole = format!("it now has two different LOGs of view {view} of each of {names}: equivocators");
        let names = set_within(&senders, Sign::Equivocator.room().saturating_sub(2 + of_view.len()));
        cell.push(here.mark(Sign::Equivocator, &format!("E {names}{of_view}"), &whole));
    }
    cell.extend(aside(here, beat));
    cell.extend(refused(here, beat));
    cell
}

fn is_second(take: &Take, kind: Kind) -> bool {
    take.message.kind == kind && take.answer == Ok(Word::Second)
}

/// The equivocators that the row has not shown yet: a second LOG is taken; or a bench's own vote differs from a LOG forged
/// under its number, which shows from the next gathering on.
fn equivocators(beat: &BeatRun, shown: &mut Shown) -> Shown {
    let second = beat.takes.iter().filter(|take| is_second(take, Kind::Log));
    let mut found: Vec<(u32, u8)> = second.map(|take| (take.message.view, take.message.sender)).collect();
    for agreement in &beat.agreements {
        found.extend(agreement.equivocators.iter().map(|&sender| (agreement.view, sender)));
    }
    let mut new = Shown::new();
    for (view, sender) in found {
        if shown.entry(view).or_default().insert(sender) {
            new.entry(view).or_default().insert(sender);
        }
    }
    new
}

fn aside(here: Here, beat: &BeatRun) -> Option<Mark> {
    let second = beat.takes.iter().filter(|take| is_second(take, Kind::Proposal));
    let senders: BTreeSet<u8> = second.map(|take| take.message.sender).collect();
    let whole = format!("it now has two different PROPOSALs of each of {}: set aside", set(&senders));
    let names = set_within(&senders, Sign::Aside.room().saturating_sub(6));
    (!senders.is_empty()).then(|| here.mark(Sign::Aside, &format!("aside {names}"), &whole))
}

/// One mark for each number of a refusal.
fn refused(here: Here, beat: &BeatRun) -> Cell {
    let mut by_number: BTreeMap<u8, Vec<String>> = BTreeMap::new();
    for take in &beat.takes {
        if let Err(number) = take.answer {
            by_number.entry(number).or_default().push(message(&take.message));
        }
    }
    let mark = |(number, messages): (&u8, &Vec<String>)| {
        let text = match messages.len() {
            1 => format!("refused {number}"),
            many => format!("refused {number} ({many}x)"),
        };
        here.mark(
            Sign::Refused,
            &text,
            &format!("refuses by {number} the {}", messages.join("; the ")),
        )
    };
    by_number.iter().map(mark).collect()
}
