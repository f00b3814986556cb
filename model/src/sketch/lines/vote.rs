//! The PROPOSALs that a vote chose among.
use super::words::log;
use crate::history::message::{is_prefix, Block, Kind, Message};
use crate::sketch::story::BenchRun;
use std::collections::{BTreeMap, BTreeSet};

/// The PROPOSALs of one view by the bench's takes and its own.
pub struct Heard<'a> {
    /// Those that are not set aside.
    standing: Vec<&'a Message>,
    set_aside: BTreeSet<u8>,
}

impl Heard<'_> {
    /// What is heard of this view by the act at this place.
    pub fn by(bench: &BenchRun, place: usize, view: u32) -> Heard<'_> {
        let filed = bench.beats[..=place].iter().flat_map(|beat| {
            let taken = beat.takes.iter().filter(|take| take.answer.is_ok()).map(|take| &take.message);
            taken.chain(beat.act.iter().filter_map(|act| act.made.as_ref()))
        });
        let mut by_sender: BTreeMap<u8, Vec<&Message>> = BTreeMap::new();
        for message in filed.filter(|message| message.kind == Kind::Proposal && message.view == view) {
            by_sender.entry(message.sender).or_default().push(message);
        }
        let (mut standing, mut set_aside) = (vec![], BTreeSet::new());
        for (sender, messages) in by_sender {
            match messages.iter().all(|message| *message == messages[0]) {
                true => standing.push(messages[0]),
                false => drop(set_aside.insert(sender)),
            }
        }
        Heard { standing, set_aside }
    }

    /// All of them in words, each with why it cannot be voted for; nothing where there are none.
    pub fn told(&self, lock: &[Block]) -> Option<String> {
        let one = |message: &&Message| {
            let without = if is_prefix(lock, &message.log) {
                ""
            } else {
                " (without the lock)"
            };
            format!(
                "{} of {}, priority {}{without}",
                log(&message.log),
                message.sender,
                message.priority
            )
        };
        let set_aside = |sender: &u8| format!("of {sender} two, set aside");
        let said: Vec<String> = self
            .standing
            .iter()
            .map(one)
            .chain(self.set_aside.iter().map(set_aside))
            .collect();
        (!said.is_empty()).then(|| format!("PROPOSALs: {}", said.join("; ")))
    }

    /// Who proposed the log that was voted for: the highest priority, then the lowest number.
    pub fn proposer(&self, voted: &[Block]) -> Option<u8> {
        let of_log = self.standing.iter().filter(|message| message.log == voted);
        let top = of_log.min_by_key(|message| (u64::MAX - message.priority, message.sender));
        top.map(|message| message.sender)
    }
}
