//! What of the rule-keepers' messages is lost, or comes at a beat that the schedule names: a broken line from where the message
//! is sent to those it does not reach by default, and a word at both ends.
use super::mark::{Cell, Here, Mark, Sign};
use super::words::{around, kind, message};
use crate::history::message::{Log, Message};
use crate::sketch::schedule::{Fate, Schedule};
use crate::sketch::story::{BeatRun, BenchRun, Run, Take};

/// A message that goes astray, and where it is drawn.
pub struct Astray<'a> {
    pub message: &'a Message,
    /// Who made it, or was the first to pass it on.
    pub from: u8,
    pub passed_on: bool,
    pub beat: u32,
    pub to: Vec<u8>,
    /// The beat in whose gathering it arrives; never, if none.
    pub at: Option<u32>,
    /// Which line of its column leads from it, counted from the cell's text to the left.
    pub lane: usize,
}

/// Every message of this run that the schedule sends astray, from where it is sent first.
pub fn astray<'a>(schedule: &Schedule, run: &'a Run) -> Vec<Astray<'a>> {
    let sent = sent(schedule, run);
    let mut found: Vec<Astray> = vec![];
    for fate in &schedule.fates {
        let mut seen: Vec<&Log> = vec![];
        for &(beat, from, message, passed_on) in sent.iter().filter(|(_, _, message, _)| concerns(fate, message)) {
            let lane = found.iter().filter(|other| other.beat == beat).count();
            let misses = |to: &u8| *to != from && !is_told(run, *to, beat, message);
            let to: Vec<u8> = fate.to.iter().copied().filter(misses).collect();
            if seen.contains(&&message.log) || to.is_empty() {
                continue;
            }
            seen.push(&message.log);
            found.push(Astray {
                message,
                from,
                passed_on,
                beat,
                to,
                at: fate.at,
                lane,
            });
        }
    }
    found
}

/// Whether a bench has this message from a rule-breaker by this beat: it misses nothing then.
fn is_told(run: &Run, own: u8, by: u32, message: &Message) -> bool {
    let beats = run
        .benches
        .iter()
        .filter(|bench| bench.own == own)
        .flat_map(|bench| &bench.beats);
    let mut takes = beats.filter(|beat| beat.beat <= by).flat_map(|beat| &beat.takes);
    takes.any(|take| take.teller.is_some() && take.answer.is_ok() && take.message == *message)
}

/// A message sent: the beat, by whom, and whether it was passed on.
type Sent<'a> = (u32, u8, &'a Message, bool);

/// What rule-keepers make and pass on, by beats.
fn sent<'a>(schedule: &Schedule, run: &'a Run) -> Vec<Sent<'a>> {
    let of_bench = |bench: &'a BenchRun| bench.beats.iter().flat_map(move |beat| sent_at(bench.own, beat));
    let mut sent: Vec<Sent> = run.benches.iter().flat_map(of_bench).collect();
    sent.retain(|(beat, ..)| (schedule.first_beat..=schedule.last_beat).contains(beat));
    sent.sort_by_key(|(beat, ..)| *beat);
    sent
}

fn sent_at(own: u8, beat: &BeatRun) -> impl Iterator<Item = Sent<'_>> {
    let passed_on = beat
        .takes
        .iter()
        .filter(|take| take.is_passed_on())
        .map(|take| (&take.message, true));
    let made = beat.act.iter().filter_map(|act| Some((act.made.as_ref()?, false)));
    passed_on
        .chain(made)
        .map(move |(message, passed_on)| (beat.beat, own, message, passed_on))
}

fn concerns(fate: &Fate, message: &Message) -> bool {
    let same = (fate.kind, fate.view, fate.sender) == (message.kind, message.view, message.sender);
    same && fate.log.as_ref().is_none_or(|log| *log == message.log)
}

impl Astray<'_> {
    /// The words where it is passed on, so that its line does not seem to start at what the act does.
    pub fn passing(&self) -> Option<Mark> {
        let here = Here {
            own: self.from,
            beat: self.beat,
        };
        let whole = format!("passes on the {}", message(self.message));
        let text = short("passes on", self.message, Sign::Passes);
        self.passed_on.then(|| here.mark(Sign::Passes, &text, &whole))
    }
}

/// The words at a bench on what it passes on and others do not get by default, once for each message.
pub fn passes(all: &[Astray], here: Here) -> Cell {
    let mut cell = Cell::new();
    for astray in all
        .iter()
        .filter(|astray| (astray.from, astray.beat) == (here.own, here.beat))
    {
        cell.extend(astray.passing().filter(|mark| !cell.contains(mark)));
    }
    cell
}

/// The words at a bench that a message does not reach by default, in the column in which it is sent.
pub fn missed(all: &[Astray], here: Here) -> Cell {
    let missing = all
        .iter()
        .filter(|astray| astray.beat == here.beat && astray.to.contains(&here.own));
    let mark = |astray: &Astray| {
        let (sign, word, fate) = match astray.at {
            None => (Sign::Lost, "lost", "never reaches it".to_string()),
            Some(at) => (Sign::Sent, "sent", format!("reaches it at beat {at}")),
        };
        let whole = format!("the {}, sent now by bench {}, {fate}", message(astray.message), astray.from);
        here.mark(sign, &short(word, astray.message, sign), &whole)
    };
    missing.map(mark).collect()
}

/// The words at a bench that a message reaches at a beat that the schedule names.
pub fn comes(schedule: &Schedule, own: u8, beat: &BeatRun) -> Cell {
    let here = Here { own, beat: beat.beat };
    let fates = schedule
        .fates
        .iter()
        .filter(|fate| fate.at == Some(beat.beat) && fate.to.contains(&own));
    let fates: Vec<&Fate> = fates.collect();
    let named = |take: &&Take| take.teller.is_none() && fates.iter().any(|fate| concerns(fate, &take.message));
    let mark = |take: &Take| {
        let whole = format!("the {} comes now, as the schedule has it", message(&take.message));
        here.mark(Sign::Comes, &short("comes", &take.message, Sign::Comes), &whole)
    };
    beat.takes.iter().filter(named).map(mark).collect()
}

fn short(word: &str, message: &Message, sign: Sign) -> String {
    let (before, after) = (format!("{word} {} ", kind(message.kind)), format!(" of {}", message.sender));
    around(&before, &message.log, &after, sign.room())
}
