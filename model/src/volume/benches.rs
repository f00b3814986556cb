//! The rule-keepers of one volume, and the post between them: every message made or passed on is sent in that beat.
use super::keeper::Keeper;
use super::post::{Post, Withheld};
use crate::history::bench::{Call, Reply, Rules, Word};
use crate::history::message::{Block, Kind, Log, Message};
use std::collections::HashSet;

/// No block offered.
pub const NO_BLOCK: Block = Block { name: 0, count: 0 };

pub struct Volume {
    pub n: u8,
    pub keepers: Vec<Keeper>,
    pub post: Post,
    /// The LOGs that rule-keepers made.
    pub votes: Vec<Message>,
}

impl Volume {
    pub fn open(rules: Rules, n: u8, numbers: &[u8], withheld: HashSet<Withheld>) -> Volume {
        let keepers = numbers.iter().map(|&own| Keeper::open(rules, n, own)).collect();
        Volume::with(n, keepers, Post::withholding(numbers.to_vec(), withheld))
    }

    /// These rule-keepers, none of which has made a call, and this post between them.
    pub fn with(n: u8, keepers: Vec<Keeper>, post: Post) -> Volume {
        let votes = vec![];
        Volume { n, keepers, post, votes }
    }

    pub fn begin(&mut self, place: usize, beat: u32) -> Reply {
        self.keepers[place].call(Call::Begin(beat))
    }

    /// Hands a message to Receive; a LOG taken as first or second is passed on.
    pub fn hand(&mut self, place: usize, bytes: &[u8]) -> Reply {
        let reply = self.keepers[place].call(Call::Receive(bytes.to_vec()));
        if let (Reply::Took(word), Some(beat)) = (&reply, self.keepers[place].gathering) {
            let message = Message::read(self.n, bytes).expect("what is taken is a message");
            if message.kind == Kind::Log {
                self.post.arrive(place, bytes);
                if *word != Word::Known {
                    self.post.send(place, beat, &message);
                }
            }
        }
        reply
    }

    /// Hands over everything that is due before the bench acts at this beat.
    pub fn hand_due(&mut self, place: usize, beat: u32) {
        for bytes in self.post.due(place, beat, true) {
            self.hand(place, &bytes);
        }
    }

    /// Acts, and sends the LOG that was made. A made PROPOSAL is given back, for any may be lost.
    pub fn act(&mut self, place: usize, block: Block, priority: u64) -> Option<Message> {
        let beat = self.keepers[place].gathering;
        let reply = self.keepers[place].call(Call::Act { block, priority });
        let Reply::Acted(Some(made)) = reply else {
            return None;
        };
        if made.kind == Kind::Proposal {
            return Some(made);
        }
        self.post.arrive(place, &made.write());
        self.post.send(place, beat.expect("an act ends a gathering"), &made);
        self.votes.push(made);
        None
    }

    /// The logs that rule-keepers voted for in a view, the most frequent first.
    pub fn voted(&self, view: u32) -> Vec<Log> {
        let logs: Vec<&Log> = self
            .votes
            .iter()
            .filter(|vote| vote.view == view)
            .map(|vote| &vote.log)
            .collect();
        let times = |log: &Log| logs.iter().filter(|other| **other == log).count();
        let mut distinct: Vec<Log> = logs.iter().map(|log| log.to_vec()).collect();
        distinct.sort();
        distinct.dedup();
        distinct.sort_by_key(|log| usize::MAX - times(log));
        distinct
    }
}
