//! What a sketch says: a schedule of many benches.
use crate::history::bench::Rules;
use crate::history::message::{Block, Kind, Log, Message};
use crate::volume::schedule::Presence;

/// A schedule. Rule-keepers are awake at every beat of it, unless said otherwise.
#[derive(Clone, PartialEq, Eq, Debug)]
pub struct Schedule {
    pub title: String,
    /// How many benches the volume has.
    pub n: u8,
    /// The numbers of those that keep the rules, ascending; the others are the rule-breakers.
    pub keepers: Vec<u8>,
    pub first_beat: u32,
    pub last_beat: u32,
    /// A wrong rule whose outcome is shown beside the right one.
    pub mistake: Option<Rules>,
    /// What each rule-keeper does, by its place in `keepers` and the beat's distance from `first_beat`.
    pub presence: Vec<Vec<Presence>>,
    pub offers: Vec<Offer>,
    /// What the rule-breakers send, in the order of the sketch.
    pub tells: Vec<Tell>,
    /// What of the rule-keepers' messages is lost or late.
    pub fates: Vec<Fate>,
}

/// A rule-keeper is offered a block, for its proposal at this beat.
#[derive(Clone, PartialEq, Eq, Debug)]
pub struct Offer {
    pub bench: u8,
    pub beat: u32,
    pub block: Block,
    pub priority: u64,
}

/// A rule-breaker hands a message to some rule-keepers in the gathering of this beat. The message's sender is the teller, or
/// another number that it forges.
#[derive(Clone, PartialEq, Eq, Debug)]
pub struct Tell {
    pub teller: u8,
    pub beat: u32,
    /// Those of them that begin the beat.
    pub to: Vec<u8>,
    pub message: Message,
}

/// A message between rule-keepers that does not arrive as by default.
#[derive(Clone, PartialEq, Eq, Debug)]
pub struct Fate {
    pub kind: Kind,
    pub view: u32,
    pub sender: u8,
    /// That log alone, or whatever log it has.
    pub log: Option<Log>,
    pub to: Vec<u8>,
    /// The beat in whose gathering it arrives; never, if none.
    pub at: Option<u32>,
}
