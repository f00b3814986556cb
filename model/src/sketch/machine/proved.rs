//! The proved code as a machine. Each call is answered by the roll of all calls so far, put through the proved library; nothing
//! of the bench is worked out here.
use super::Machine;
use crate::history::bench::{Call, Reply, Word};
use crate::history::message::{Log, Message};
use crate::history::roll::{write_roll, NO_ROLL};
use crate::proved::{roll_made, roll_page, roll_text};
use crate::sketch::page::Page;

pub struct Proved {
    n: u8,
    own: u8,
    calls: Vec<Call>,
    /// The calls so far, as the library takes them.
    roll: Vec<u8>,
    text: String,
    /// The beat last begun.
    beat: u32,
    /// The log that the last call decided.
    decided: Option<Log>,
    /// The decided log that stands, how many blocks it has by the text, and whether the mark is set.
    standing: Log,
    blocks: usize,
    parted: bool,
}

impl Proved {
    /// A fresh bench, or refusal 7.
    pub fn open(n: u8, own: u8) -> Result<Proved, u8> {
        let roll = write_roll(n, own, &[]);
        let text = roll_text(&roll);
        if text == NO_ROLL {
            return Err(7);
        }
        Ok(Proved {
            n,
            own,
            calls: vec![],
            roll,
            text: String::from_utf8_lossy(&text).into_owned(),
            beat: 0,
            decided: None,
            standing: vec![],
            blocks: 0,
            parted: false,
        })
    }

    /// What the text's last line says of the last call.
    fn reply(&mut self) -> Reply {
        let line = self.text.lines().last().unwrap_or_default();
        let words: Vec<&str> = line.split(' ').collect();
        match words[..] {
            ["begin", beat, "ok"] => {
                self.beat = parsed(beat);
                Reply::Begun
            }
            ["take", "first"] => Reply::Took(Word::First),
            ["take", "second"] => Reply::Took(Word::Second),
            ["take", "known"] => Reply::Took(Word::Known),
            ["act", made, _, blocks, ref mark @ ..] => {
                (self.blocks, self.parted) = (parsed(blocks), *mark == ["parted"]);
                Reply::Acted((made != "none").then(|| self.made()))
            }
            ["begin", _, number] | ["take" | "act", number] => Reply::Refused(parsed(number)),
            _ => panic!("not a line of a roll's text: `{line}`"),
        }
    }

    /// The message that the last call made.
    fn made(&self) -> Message {
        let bytes = roll_made(&self.roll, self.calls.len() - 1).expect("the text says that one was made");
        Message::read(self.n, &bytes).expect("what a bench makes is a message")
    }
}

/// A number of the text.
fn parsed<T: std::str::FromStr>(word: &str) -> T {
    word.parse()
        .unwrap_or_else(|_| panic!("not a number of a roll's text: `{word}`"))
}

impl Machine for Proved {
    fn call(&mut self, call: &Call) -> Reply {
        // What is decided is what the act reads at 4v+2.
        let is_deciding = matches!(call, Call::Act { .. }) && self.beat % 4 == 2;
        let read = if is_deciding { self.page().reading.log } else { None };
        self.calls.push(call.clone());
        self.roll = write_roll(self.n, self.own, &self.calls);
        self.text = String::from_utf8_lossy(&roll_text(&self.roll)).into_owned();
        let reply = self.reply();
        self.decided = None;
        if matches!(reply, Reply::Acted(_)) {
            self.decided = read;
            self.standing = self.page().decided;
        }
        reply
    }

    fn decided(&self) -> Option<Log> {
        self.decided.clone()
    }

    fn standing(&self) -> (Log, bool) {
        (self.standing.clone(), self.parted)
    }

    fn text(&self) -> &str {
        &self.text
    }

    fn page(&self) -> Page {
        let held = roll_page(&self.roll, self.calls.len()).expect("the calls so far are a roll");
        Page::of_held(&held, self.beat, self.blocks, self.parted)
    }
}
