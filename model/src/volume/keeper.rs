//! A rule-keeper: a bench, and the list of its calls with what each gave back.
use crate::history::bench::{Call, Reply, Rules};
use crate::history::message::Log;
use crate::sketch::machine::model::Model;
use crate::sketch::machine::Machine;
use crate::sketch::page::Page;

/// One call of the list, and what was seen of the bench after it.
pub struct Entry {
    pub call: Call,
    pub reply: Reply,
    /// The beat last begun.
    pub beat: Option<u32>,
    /// The log that this call decided, even where that changed nothing.
    pub decided: Option<Log>,
    pub standing: Log,
    pub parted: bool,
    /// Its line in the text of a roll.
    pub line: String,
}

pub struct Keeper {
    pub own: u8,
    pub n: u8,
    machine: Box<dyn Machine>,
    /// The text of a roll's first line.
    pub first_line: String,
    /// The log that stands before any call.
    pub fresh: Log,
    pub list: Vec<Entry>,
    /// The beat last begun.
    beat: Option<u32>,
    /// The beat of the gathering under way.
    pub gathering: Option<u32>,
}

impl Keeper {
    /// One in the model.
    pub fn open(rules: Rules, n: u8, own: u8) -> Keeper {
        let model = Model::open(rules, n, own).expect("a volume has numbers in range");
        Keeper::with(n, own, Box::new(model))
    }

    /// One on a fresh machine of these numbers.
    pub fn with(n: u8, own: u8, machine: Box<dyn Machine>) -> Keeper {
        Keeper {
            own,
            n,
            first_line: machine.text().to_string(),
            fresh: machine.standing().0,
            machine,
            list: vec![],
            beat: None,
            gathering: None,
        }
    }

    /// Makes a call and lists it.
    pub fn call(&mut self, call: Call) -> Reply {
        let before = self.machine.text().len();
        let reply = self.machine.call(&call);
        match (&call, &reply) {
            (Call::Begin(beat), Reply::Begun) => (self.beat, self.gathering) = (Some(*beat), Some(*beat)),
            (_, Reply::Acted(_)) => self.gathering = None,
            _ => {}
        }
        let (standing, parted) = self.machine.standing();
        self.list.push(Entry {
            beat: self.beat,
            decided: self.machine.decided(),
            standing,
            parted,
            line: self.machine.text()[before..].to_string(),
            call,
            reply: reply.clone(),
        });
        reply
    }

    /// The log that stands.
    pub fn standing(&self) -> Log {
        self.machine.standing().0
    }

    /// What the bench holds after the calls so far.
    pub fn page(&self) -> Page {
        self.machine.page()
    }

    /// What the program of a roll prints of its list.
    pub fn text(&self) -> &str {
        self.machine.text()
    }
}
