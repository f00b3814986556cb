//! What one list of calls says by itself: when its bench was awake, and which LOGs it made, took and passed on.
use super::keeper::{Entry, Keeper};
use crate::history::bench::{Call, Reply, Word};
use crate::history::message::{Kind, Message};
use std::collections::{BTreeSet, HashMap, HashSet};

/// A LOG that the bench made or passed on, and the beat of it.
pub struct Sent {
    pub beat: u32,
    pub sender: u8,
    pub view: u32,
    pub bytes: Vec<u8>,
}

impl Sent {
    fn new(beat: u32, message: &Message) -> Sent {
        Sent {
            beat,
            sender: message.sender,
            view: message.view,
            bytes: message.write(),
        }
    }
}

/// A LOG that the bench took, and the beat of it.
pub struct Taken {
    pub beat: u32,
    pub word: Word,
    pub message: Message,
    pub bytes: Vec<u8>,
}

pub struct Reading {
    pub own: u8,
    /// The beats begun without refusal.
    pub begun: BTreeSet<u32>,
    /// The beats begun and acted in, neither call refused.
    pub awake: BTreeSet<u32>,
    pub made: HashSet<Vec<u8>>,
    pub sent: Vec<Sent>,
    pub taken: Vec<Taken>,
    /// The beat at which each LOG was first taken.
    pub with: HashMap<Vec<u8>, u32>,
}

impl Reading {
    pub fn of(keeper: &Keeper) -> Reading {
        let mut reading = Reading {
            own: keeper.own,
            begun: BTreeSet::new(),
            awake: BTreeSet::new(),
            made: HashSet::new(),
            sent: vec![],
            taken: vec![],
            with: HashMap::new(),
        };
        let mut beat = 0;
        for entry in &keeper.list {
            if let (Call::Begin(begun), Reply::Begun) = (&entry.call, &entry.reply) {
                beat = *begun;
            }
            reading.enter(keeper.n, beat, entry);
        }
        reading
    }

    fn enter(&mut self, n: u8, beat: u32, entry: &Entry) {
        match (&entry.call, &entry.reply) {
            (Call::Begin(_), Reply::Begun) => {
                self.begun.insert(beat);
            }
            (Call::Receive(bytes), Reply::Took(word)) => {
                let message = Message::read(n, bytes).expect("what is taken is a message");
                if message.kind == Kind::Log {
                    self.take(beat, *word, message, bytes);
                }
            }
            (Call::Act { .. }, Reply::Acted(made)) => {
                self.awake.insert(beat);
                if let Some(vote) = made.as_ref().filter(|message| message.kind == Kind::Log) {
                    self.made.insert(vote.write());
                    self.sent.push(Sent::new(beat, vote));
                }
            }
            _ => {}
        }
    }

    fn take(&mut self, beat: u32, word: Word, message: Message, bytes: &[u8]) {
        if word != Word::Known {
            self.sent.push(Sent::new(beat, &message));
        }
        self.with.entry(bytes.to_vec()).or_insert(beat);
        self.taken.push(Taken {
            beat,
            word,
            message,
            bytes: bytes.to_vec(),
        });
    }

    /// The first beat after this one in which the bench is awake.
    pub fn first_awake_after(&self, beat: u32) -> Option<u32> {
        self.awake.range(beat + 1..).next().copied()
    }
}

/// Whether LOGs of this view are taken at this beat.
pub fn log_window_is_open(view: u32, beat: u32) -> bool {
    (4 * view + 1..=4 * view + 6).contains(&beat)
}
