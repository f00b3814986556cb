//! Where the premises of demand 3 fail, in the words that the lines and the picture share. What is alike is told once.
use super::schedule::Schedule;
use super::story::{BeatRun, BenchRun, Run, Take};
use super::words::{counted, log, ranges};
use crate::history::message::{Block, Kind, Message};
use crate::volume::premises::{Breach, Premise};
use std::collections::{BTreeMap, BTreeSet};

#[cfg(test)]
mod tests;

/// A premise fails.
#[derive(Debug)]
pub struct Failure {
    pub premise: Premise,
    pub words: String,
    pub place: Place,
}

/// Where a failure is to be marked.
#[derive(PartialEq, Eq, Debug)]
pub enum Place {
    /// At these benches, all at one beat.
    Benches { benches: BTreeSet<u8>, beat: u32 },
    /// In all views from the first to the last.
    Views { first: u32, last: u32 },
}

/// Every failure of this run: of delivery and of numbers by beats, of the majority by views.
pub fn failures(schedule: &Schedule, run: &Run) -> Vec<Failure> {
    let mut all = undelivered(run);
    all.extend(forged(run));
    all.extend(outnumbered(schedule, run));
    all
}

/// The beat of a view's vote, where the sketch ends before it, so that nobody can count.
pub fn vote_beyond(schedule: &Schedule, view: u32) -> Option<u32> {
    let vote = view.saturating_mul(4).saturating_add(1);
    (schedule.last_beat < vote).then_some(vote)
}

/// A LOG by view, sender and log.
type Named<'a> = (u32, u8, &'a [Block]);

fn named(message: &Message) -> Named<'_> {
    (message.view, message.sender, &message.log)
}

fn words((view, sender, blocks): Named) -> String {
    format!("LOG v{view} of {sender} {}", log(blocks))
}

/// Who sent one LOG in one beat, and with whom it was not by their acts of another.
#[derive(Default)]
struct Missing {
    made: BTreeSet<u8>,
    passed_on: BTreeSet<u8>,
    to: BTreeSet<u8>,
}

/// Whether a LOG is with a bench is the same whoever sent it, so each of these sent it in vain to each of those.
fn undelivered(run: &Run) -> Vec<Failure> {
    let mut missing: BTreeMap<(u32, u32, Named), Missing> = BTreeMap::new();
    for breach in &run.breaches {
        let Breach::Delivery {
            from,
            beat,
            to,
            due,
            view,
        } = *breach
        else {
            continue;
        };
        let has = with(run, to, due);
        for sent in beats(run, from).iter().filter(|sent| sent.beat == beat) {
            let owed = |log: &&Message| {
                let same = log.kind == Kind::Log && log.view == view;
                same && log.sender != to && !has.contains(log)
            };
            let mut note = |log, made: bool| {
                let missing = missing.entry((beat, due, named(log))).or_default();
                let senders = if made { &mut missing.made } else { &mut missing.passed_on };
                senders.insert(from);
                missing.to.insert(to);
            };
            passed_on(sent).filter(owed).for_each(|log| note(log, false));
            made(sent).filter(owed).for_each(|log| note(log, true));
        }
    }
    missing.into_iter().map(lost).collect()
}

fn lost(((beat, due, log), missing): ((u32, u32, Named), Missing)) -> Failure {
    let by = |verb: &str, these: Vec<&u8>| (!these.is_empty()).then(|| format!("{verb} by {}", row(these)));
    let made = by("made", missing.made.iter().collect());
    let passed_on = by("passed on", missing.passed_on.difference(&missing.made).collect());
    let sent = made.into_iter().chain(passed_on).collect::<Vec<String>>().join(" and ");
    let (to, acts) = (row(&missing.to), if missing.to.len() == 1 { "its act" } else { "their acts" });
    Failure {
        premise: Premise::Delivery,
        words: format!(
            "{}, {sent} at beat {beat}, was not with {to} by {acts} at beat {due}",
            words(log)
        ),
        place: Place::Benches {
            benches: missing.to,
            beat: due,
        },
    }
}

fn beats(run: &Run, own: u8) -> &[BeatRun] {
    let bench = run.benches.iter().find(|bench| bench.own == own);
    bench.map_or(&[][..], |bench: &BenchRun| &bench.beats)
}

fn passed_on(beat: &BeatRun) -> impl Iterator<Item = &Message> {
    beat.takes.iter().filter(|take| take.is_passed_on()).map(|take| &take.message)
}

fn made(beat: &BeatRun) -> impl Iterator<Item = &Message> {
    beat.act.iter().filter_map(|act| act.made.as_ref())
}

/// What a bench took by its act at `due`.
fn with(run: &Run, own: u8, due: u32) -> Vec<&Message> {
    let takes = beats(run, own)
        .iter()
        .filter(|beat| beat.beat <= due)
        .flat_map(|beat| &beat.takes);
    takes.filter(|take| take.answer.is_ok()).map(|take| &take.message).collect()
}

/// The LOGs taken under the number of a rule-keeper that never made them; those who took one in one beat together.
fn forged(run: &Run) -> Vec<Failure> {
    let mut takers: BTreeMap<(u32, Named), BTreeSet<u8>> = BTreeMap::new();
    for breach in &run.breaches {
        let Breach::Numbers {
            taker,
            beat,
            number,
            view,
        } = *breach
        else {
            continue;
        };
        let takes = beats(run, taker).iter().filter(|at| at.beat == beat).flat_map(|at| &at.takes);
        let is_forged = |take: &&Take| {
            let Message {
                kind, view: of, sender, ..
            } = take.message;
            let said = (kind, of, sender) == (Kind::Log, view, number) && take.answer.is_ok();
            said && !beats(run, number).iter().flat_map(made).any(|log| *log == take.message)
        };
        for take in takes.filter(is_forged) {
            takers.entry((beat, named(&take.message))).or_default().insert(taker);
        }
    }
    let failure = |((beat, log), benches): ((u32, Named), BTreeSet<u8>)| {
        let who = if benches.len() == 1 { "bench" } else { "benches" };
        let (who, number) = (format!("{who} {}", row(&benches)), log.1);
        let words = format!("{who} took {} at beat {beat}, which bench {number} never made", words(log));
        let (premise, place) = (Premise::Numbers, Place::Benches { benches, beat });
        Failure { premise, words, place }
    };
    takers.into_iter().map(failure).collect()
}

/// The views in which too few count, those with the same rule-keepers together; one whose vote the sketch does not reach alone.
fn outnumbered(schedule: &Schedule, run: &Run) -> Vec<Failure> {
    let few = run.breaches.iter().filter_map(|breach| match breach {
        Breach::Majority { view, awake, breakers } => Some((*view, awake, *breakers)),
        Breach::Delivery { .. } | Breach::Numbers { .. } => None,
    });
    let mut rows: Vec<([u32; 2], &[u8], usize)> = vec![];
    for (view, awake, breakers) in few {
        match rows.last_mut() {
            Some(([_, last], same, _)) if *same == awake && *last + 1 == view && vote_beyond(schedule, view).is_none() => {
                *last = view;
            }
            _ => rows.push(([view, view], awake, breakers)),
        }
    }
    let failure = |([first, last], awake, breakers): ([u32; 2], &[u8], usize)| Failure {
        premise: Premise::Majority,
        words: too_few(schedule, [first, last], awake, breakers),
        place: Place::Views { first, last },
    };
    rows.into_iter().map(failure).collect()
}

fn too_few(schedule: &Schedule, [first, last]: [u32; 2], awake: &[u8], breakers: usize) -> String {
    let who = match awake.len() {
        0 => "nobody counts".to_string(),
        1 => format!("only {{{}}} counts", awake[0]),
        _ => format!("only {{{}}} count", ranges(awake.iter().copied().map(usize::from)).join(",")),
    };
    if let Some(vote) = vote_beyond(schedule, first) {
        return format!("in view {first} {who}: the sketch ends before its vote at beat {vote}");
    }
    let (views, beats) = match (first, last) {
        (0, 0) => ("view 0".to_string(), "beat 1".to_string()),
        _ if first == last => (
            format!("view {first}"),
            format!("beats {} and {}", 4 * u64::from(first) - 1, 4 * u64::from(first) + 1),
        ),
        (0, _) => (format!("views 0 to {last}"), "4v-1 and 4v+1, in view 0 at 1".to_string()),
        _ => (format!("views {first} to {last}"), "4v-1 and 4v+1".to_string()),
    };
    let against = counted(breakers, "rule-breaker", "rule-breakers");
    format!("in {views} {who} (awake at {beats}), against {against}")
}

/// Bench numbers within a sentence.
fn row<'a>(numbers: impl IntoIterator<Item = &'a u8>) -> String {
    ranges(numbers.into_iter().map(|&number| usize::from(number))).join(" ")
}
