//! The other benches, simulated loosely: what they propose and vote for in a view, and when the bench hears of it.
use super::draft;
use super::random::Random;
use crate::history::message::{is_prefix, Block, Kind, Log, Message};

/// How the others behave, in times of a hundred unless said otherwise.
#[derive(Clone, Copy, Debug)]
pub struct Temper {
    /// How many others are heard at all.
    pub heard: usize,
    /// A vote or proposal for something else.
    pub noise: usize,
    /// A second vote or proposal by the same sender.
    pub equivocation: usize,
    /// A message under the bench's own number.
    pub forgery: usize,
    /// All going over to another branch, as only rule-breakers do.
    pub flip: usize,
    /// A message handed over at a later beat than the first it may.
    pub delay: usize,
}

pub struct Crowd {
    pub temper: Temper,
    own: u8,
    /// Who is heard.
    senders: Vec<u8>,
    /// What most others last voted for.
    pub log: Log,
    /// Messages not yet handed over, each with its beat.
    pending: Vec<(u32, Message)>,
}

impl Crowd {
    pub fn new(random: &mut Random, temper: Temper, (n, own): (u8, u8), log: Log) -> Crowd {
        let mut senders: Vec<u8> = (0..n).filter(|&sender| sender != own).collect();
        random.shuffle(&mut senders);
        senders.truncate(temper.heard);
        Crowd {
            temper,
            own,
            senders,
            log,
            pending: vec![],
        }
    }

    /// Some others propose in view v, mostly one block more than what they last voted for.
    pub fn propose(&mut self, random: &mut Random, view: u32) {
        let some = random.below(4);
        for sender in self.speakers(random, some) {
            let log = draft::extended(random, &self.log);
            let proposal = Message {
                kind: Kind::Proposal,
                sender,
                view,
                priority: draft::priority(random),
                log,
            };
            let late = u32::from(random.percent(self.temper.delay.max(20)));
            self.send(random, 4 * view + late, proposal, 4 * view + 1);
        }
    }

    /// The others vote in view v, mostly alike: for what the bench voted for if that extends what they voted for last.
    pub fn vote(&mut self, random: &mut Random, view: u32, theirs: Option<&Log>, decided: &[Block]) {
        self.log = self.target(random, view, theirs, decided);
        for sender in self.speakers(random, usize::MAX) {
            let log = self.log.clone();
            let vote = Message {
                kind: Kind::Log,
                sender,
                view,
                priority: 0,
                log,
            };
            let late = if random.percent(self.temper.delay) {
                random.below(6) as u32
            } else {
                1
            };
            self.send(random, 4 * view + 1 + late, vote, 4 * view + 6);
        }
    }

    /// What is handed over in the gathering of this beat, in any order; what was missed in sleep comes with it.
    pub fn arriving(&mut self, random: &mut Random, beat: u32) -> Vec<Message> {
        let (now, later): (Vec<_>, Vec<_>) = self.pending.drain(..).partition(|(due, _)| *due <= beat);
        self.pending = later;
        let mut messages: Vec<Message> = now.into_iter().map(|(_, message)| message).collect();
        if !messages.is_empty() && random.percent(self.temper.noise) {
            messages.push(messages[random.below(messages.len())].clone());
        }
        random.shuffle(&mut messages);
        messages
    }

    /// A vote out of turn, from any number up to `n` itself.
    pub fn stray(&self, random: &mut Random, n: u8, view: u32) -> Message {
        let sender = random.from_to(0, usize::from(n)) as u8;
        Message {
            kind: Kind::Log,
            sender,
            view: view.saturating_sub(random.below(3) as u32),
            priority: 0,
            log: self.log.clone(),
        }
    }

    /// Up to so many of those heard, and at times the bench's own number.
    fn speakers(&self, random: &mut Random, most: usize) -> Vec<u8> {
        let mut speakers = self.senders.clone();
        random.shuffle(&mut speakers);
        speakers.truncate(most);
        if random.percent(self.temper.forgery) {
            speakers.push(self.own);
        }
        speakers
    }

    /// What most vote for.
    fn target(&self, random: &mut Random, view: u32, theirs: Option<&Log>, decided: &[Block]) -> Log {
        if random.percent(self.temper.flip) {
            // Back to what is decided as often as away from it, so that a parted bench decides again.
            return if random.percent(50) {
                draft::branched(random, decided)
            } else {
                draft::extended(random, decided)
            };
        }
        match theirs {
            Some(log) if is_prefix(&self.log, log) && random.percent(90) => log.clone(),
            _ if view > 0 && random.percent(30) => self.log.clone(),
            _ => draft::extended(random, &self.log),
        }
    }

    /// Sends a message due at this beat, or another in its place, and at times a second one by the last beat of its window.
    fn send(&mut self, random: &mut Random, due: u32, message: Message, last: u32) {
        let mut message = message;
        if random.percent(self.temper.noise) {
            message.log = astray(random, &message.log);
        }
        if random.percent(self.temper.equivocation) {
            let mut second = message.clone();
            second.log = astray(random, &message.log);
            if message.kind == Kind::Proposal && random.percent(50) {
                second = Message {
                    priority: draft::priority(random),
                    ..message.clone()
                };
            }
            self.pending
                .push((random.from_to(due as usize, last as usize) as u32, second));
        }
        self.pending.push((due, message));
    }
}

/// Another log than this one, mostly near it.
fn astray(random: &mut Random, log: &[Block]) -> Log {
    match random.below(5) {
        0 => draft::log(random, 3),
        1 => draft::extended(random, log),
        2 => draft::shortened(random, log),
        3 => vec![],
        _ => draft::branched(random, log),
    }
}
