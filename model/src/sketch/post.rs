//! How a sketch's messages between rule-keepers come to each of them.
use super::schedule::Fate;
use super::story::{BeatRun, BenchRun, Run};
use crate::history::message::{Kind, Message};
use crate::volume::post::{Course, Courses};

/// LOGs are due, PROPOSALs come at 4v+1, and what the sketch says of a message goes before that. One that names the log goes
/// before one that does not, and a later line before an earlier.
pub fn courses(fates: Vec<Fate>) -> Courses {
    Box::new(move |to, message| {
        let said = fates.iter().filter(|fate| is_about(fate, to, message));
        match said.max_by_key(|fate| fate.log.is_some()) {
            Some(fate) => fate.at.map_or(Course::Never, Course::At),
            None if message.kind == Kind::Proposal => Course::At(4 * message.view + 1),
            None => Course::Due,
        }
    })
}

/// Whether the fate speaks of this message on its way to this bench.
pub fn is_about(fate: &Fate, to: u8, message: &Message) -> bool {
    let same = (fate.kind, fate.view, fate.sender) == (message.kind, message.view, message.sender);
    same && fate.to.contains(&to) && fate.log.as_ref().is_none_or(|log| *log == message.log)
}

/// Whether a message of this run met the fate: one that a rule-keeper sent, on its way to another that had it not.
pub fn is_met(fate: &Fate, run: &Run) -> bool {
    run.benches.iter().enumerate().any(|(from, sender)| {
        let mut sendings = sender
            .beats
            .iter()
            .flat_map(|beat| sent(beat).map(move |message| (beat.beat, message)));
        let others = || run.benches.iter().enumerate().filter(move |(to, _)| *to != from);
        let meets = |message, beat, (to, bench): (usize, &BenchRun)| {
            is_about(fate, bench.own, message) && !had(&bench.beats, to, message, (beat, from))
        };
        sendings.any(|(beat, message)| others().any(|other| meets(message, beat, other)))
    })
}

/// What a rule-keeper made or passed on in a beat.
fn sent(beat: &BeatRun) -> impl Iterator<Item = &Message> {
    let passed_on = beat.takes.iter().filter(|take| take.is_passed_on()).map(|take| &take.message);
    passed_on.chain(beat.act.iter().filter_map(|act| act.made.as_ref()))
}

/// Whether the bench at this place, whose beats these are, had the message before the turn of that beat and place.
fn had(beats: &[BeatRun], place: usize, message: &Message, turn: (u32, usize)) -> bool {
    let before = beats.iter().filter(|beat| (beat.beat, place) < turn);
    let mut known = before.flat_map(|beat| {
        let taken = beat.takes.iter().filter(|take| take.answer.is_ok()).map(|take| &take.message);
        taken.chain(beat.act.iter().filter_map(|act| act.made.as_ref()))
    });
    known.any(|one| one == message)
}
