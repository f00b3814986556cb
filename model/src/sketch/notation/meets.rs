//! What a line with `reaches` needs so that any message can meet it: beats of its view, and a receiver that is not the sender.
use super::fault::Fault;
use super::words::Word;
use crate::history::message::{Kind, LAST_VIEW};
use crate::sketch::post::is_about;
use crate::sketch::schedule::{Fate, Tell};

/// The first and the last beat at which such a message is made or taken, from 4v.
const fn window(kind: Kind) -> (u32, u32) {
    match kind {
        Kind::Log => (1, 6),
        Kind::Proposal => (0, 1),
    }
}

pub fn name(kind: Kind) -> &'static str {
    match kind {
        Kind::Log => "LOG",
        Kind::Proposal => "PROPOSAL",
    }
}

/// The beats at which a message of this view is made or taken.
pub fn beats_of(kind: Kind, view: u32) -> (u32, u32) {
    let (first, last) = window(kind);
    (4 * view + first, 4 * view + last)
}

/// The view that a line speaks of.
pub struct Viewed {
    pub kind: Kind,
    pub view: u32,
    pub word: Word,
}

impl Viewed {
    /// The fault, where the sketch has none of the beats at which such a message is made or taken.
    pub fn missed_by(&self, (first, last): (u32, u32)) -> Option<Fault> {
        let (made, taken) = beats_of(self.kind, self.view);
        if made <= last && first <= taken {
            return None;
        }
        let (made, taken) = window(self.kind);
        let lowest = first.saturating_sub(taken).div_ceil(4);
        let highest = last.checked_sub(made).map(|beat| (beat / 4).min(LAST_VIEW));
        let name = name(self.kind);
        let when = match self.kind {
            Kind::Log => "4v+1 to 4v+6",
            Kind::Proposal => "4v to 4v+1",
        };
        let expected = match highest.filter(|highest| lowest <= *highest) {
            Some(highest) if lowest == highest => format!("a view of which the sketch has beats, v{lowest} ({name}s: {when})"),
            Some(highest) => format!("a view of which the sketch has beats, v{lowest} to v{highest} ({name}s: {when})"),
            None => format!("no line about a {name} (the sketch has none of the beats {when} of any view)"),
        };
        Some(Fault::at(&self.word, expected))
    }
}

/// A line whose only receiver is the message's sender.
pub struct Own {
    pub fate: Fate,
    pub word: Word,
}

impl Own {
    /// The fault, unless a rule-breaker forges such a LOG: that one is passed on to whom it seems to be of.
    pub fn unforged_by(&self, tells: &[Tell]) -> Option<Fault> {
        let Fate { kind, sender, .. } = self.fate;
        let forges = |tell: &Tell| is_about(&self.fate, sender, &tell.message);
        if kind == Kind::Log && tells.iter().any(forges) {
            return None;
        }
        let note = match (kind, tells.is_empty()) {
            (Kind::Log, false) => format!(", and no rule-breaker sends this one as {sender}"),
            _ => String::new(),
        };
        let expected = format!("another bench (nobody hands bench {sender} its own {}{note})", name(kind));
        Some(Fault::at(&self.word, expected))
    }
}
