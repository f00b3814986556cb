//! The post between rule-keepers: what is under way to whom since when, and who has it. It brings more than the premise on delivery
//! asks for: also what bears the receiver's own number.
use super::reading::log_window_is_open;
use crate::history::message::Message;
use std::collections::HashSet;

/// How a message between rule-keepers comes to one of them.
#[derive(Clone, Copy, PartialEq, Eq, Debug)]
pub enum Course {
    /// In the first gathering after it was sent that ends in an act, if its window is open then.
    Due,
    /// In the gathering of this beat.
    At(u32),
    Never,
}

struct Sending {
    since: u32,
    course: Course,
    view: u32,
    bytes: Vec<u8>,
}

/// A LOG that never gets through: to this bench, of this sender, of this view.
pub type Withheld = (u8, u8, u32);

/// The course of each message to the bench of this number.
pub type Courses = Box<dyn Fn(u8, &Message) -> Course>;

pub struct Post {
    under_way: Vec<Vec<Sending>>,
    /// The LOGs that each bench has taken or made.
    with: Vec<HashSet<Vec<u8>>>,
    /// The numbers of the rule-keepers, by their places.
    numbers: Vec<u8>,
    courses: Courses,
}

impl Post {
    pub fn new(numbers: Vec<u8>, courses: Courses) -> Post {
        let (under_way, with) = numbers.iter().map(|_| (vec![], HashSet::new())).unzip();
        Post {
            under_way,
            with,
            numbers,
            courses,
        }
    }

    /// All LOGs are due but these; none of these wherever the delivery premise is kept.
    pub fn withholding(numbers: Vec<u8>, withheld: HashSet<Withheld>) -> Post {
        let course = move |to: u8, log: &Message| match withheld.contains(&(to, log.sender, log.view)) {
            true => Course::Never,
            false => Course::Due,
        };
        Post::new(numbers, Box::new(course))
    }

    /// A message made or passed on by the rule-keeper at this place is under way to every other that has it not.
    pub fn send(&mut self, from: usize, beat: u32, message: &Message) {
        let bytes = message.write();
        for to in (0..self.under_way.len()).filter(|&to| to != from) {
            let course = (self.courses)(self.numbers[to], message);
            let queued = self.under_way[to].iter().any(|sending| sending.bytes == bytes);
            if course != Course::Never && !queued && !self.with[to].contains(&bytes) {
                self.under_way[to].push(Sending {
                    since: beat,
                    course,
                    view: message.view,
                    bytes: bytes.clone(),
                });
            }
        }
    }

    /// The rule-keeper at this place has the LOG: it is under way to it no longer.
    pub fn arrive(&mut self, to: usize, bytes: &[u8]) {
        self.with[to].insert(bytes.to_vec());
        self.under_way[to].retain(|sending| sending.bytes != bytes);
    }

    /// What must be handed over in the gathering of this beat, before the act if there is one.
    pub fn due(&self, to: usize, beat: u32, acts: bool) -> Vec<Vec<u8>> {
        let due = |sending: &&Sending| match sending.course {
            Course::Due => acts && sending.since < beat && log_window_is_open(sending.view, beat),
            Course::At(at) => at == beat,
            Course::Never => false,
        };
        self.under_way[to]
            .iter()
            .filter(due)
            .map(|sending| sending.bytes.clone())
            .collect()
    }

    /// What may be handed over in this beat, sent in this beat or before.
    pub fn ready(&self, to: usize, beat: u32) -> Vec<Vec<u8>> {
        let ready = self.under_way[to]
            .iter()
            .filter(|sending| log_window_is_open(sending.view, beat));
        ready.map(|sending| sending.bytes.clone()).collect()
    }
}
