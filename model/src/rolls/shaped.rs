//! One bench through several views of the protocol: the calendar's beats in their order, others heard, sleep. The model itself
//! runs beside the list being made, so that the others can follow what the bench votes for.
use super::crowd::{Crowd, Temper};
use super::draft::{self, Draft};
use super::random::Random;
use crate::history::bench::{Bench, Call, Reply, LAST_BEAT};
use crate::history::message::{Kind, Log, LAST_VIEW};

/// How one schedule goes, in times of a hundred unless said otherwise.
pub struct Manner {
    pub numbers: (u8, u8),
    pub temper: Temper,
    /// The view it starts in.
    view: u32,
    /// How many beats it lasts, room allowing.
    beats: u32,
    /// How many blocks the others start from.
    blocks: usize,
    /// A block offered.
    offers: usize,
    /// A beat not begun, at times with those after it, or begun and not acted in.
    sleep: usize,
    /// A call that is refused, in between.
    stumbles: usize,
}

impl Manner {
    /// Others are heard, in every mood from none to wild.
    pub fn in_company(random: &mut Random) -> Manner {
        let numbers = draft::numbers(random);
        let wild = random.pick(&[0, 0, 5, 5, 15, 30]);
        let mut some = |most: usize| random.below(most + 1) * wild / 30;
        let (noise, equivocation, forgery, delay, sleep) = (some(40), some(50), some(30), some(60), some(40));
        let heard = if random.percent(70) { 31 } else { random.below(8) };
        let flip = random.pick(&[0, 0, 0, 10, 30]);
        Manner {
            numbers,
            temper: Temper {
                heard,
                noise,
                equivocation,
                forgery,
                flip,
                delay,
            },
            view: first_view(random),
            beats: random.pick(&[7, 12, 20, 30, 40, 60]),
            blocks: first_blocks(random),
            offers: random.pick(&[0, 50, 80, 100]),
            sleep,
            stumbles: random.pick(&[0, 0, 5, 20]),
        }
    }

    /// Next to nobody is heard, and it lasts as long as a roll has room: the log grows to 64 blocks and stays there.
    pub fn alone(random: &mut Random) -> Manner {
        let numbers = draft::numbers(random);
        let heard = random.pick(&[0, 0, 0, 1, 2]);
        let temper = Temper {
            heard,
            noise: 0,
            equivocation: 0,
            forgery: 0,
            flip: random.pick(&[0, 0, 2]),
            delay: 0,
        };
        let view = random.pick(&[0, 0, 0, LAST_VIEW - 70]);
        let blocks = random.pick(&[0, 0, 0, 20, 40, 60]);
        let view = if heard == 0 { 0 } else { view };
        Manner {
            numbers,
            temper,
            view,
            beats: 512,
            blocks,
            offers: random.pick(&[90, 100]),
            sleep: 0,
            stumbles: 0,
        }
    }
}

fn first_view(random: &mut Random) -> u32 {
    match random.below(8) {
        0..=4 => 0,
        5 => random.below(10) as u32,
        6 => LAST_VIEW - random.below(6) as u32,
        _ => random.below(LAST_VIEW as usize) as u32,
    }
}

fn first_blocks(random: &mut Random) -> usize {
    match random.below(8) {
        0..=4 => 0,
        5 => random.below(6),
        6 => random.from_to(58, 64),
        _ => random.below(65),
    }
}

pub fn roll(random: &mut Random, manner: impl Fn(&mut Random) -> Manner) -> Vec<u8> {
    let manner = manner(random);
    let (n, own) = manner.numbers;
    let log = (0..manner.blocks).map(|_| draft::block(random)).collect();
    let crowd = Crowd::new(random, manner.temper, manner.numbers, log);
    let bench = Bench::open(n, own).expect("numbers in range");
    let mut stage = Stage {
        random,
        draft: Draft::new(n, own),
        bench,
        crowd,
        manner,
        wakes: 0,
    };
    // In the middle of the calendar the first thing heard is a vote: nothing was graded before it.
    let first = 4 * stage.manner.view + u32::from(stage.manner.view > 0);
    for beat in first..=LAST_BEAT.min(first + stage.manner.beats) {
        stage.beat(beat);
        if stage.draft.is_full() {
            break;
        }
    }
    stage.draft.roll()
}

/// A list of calls in the making.
struct Stage<'a> {
    random: &'a mut Random,
    draft: Draft,
    bench: Bench,
    crowd: Crowd,
    manner: Manner,
    /// The beat until which it sleeps.
    wakes: u32,
}

impl Stage<'_> {
    /// One beat: what the others say is set down whether or not the bench is there to hear it.
    fn beat(&mut self, beat: u32) {
        let view = beat / 4;
        if beat.is_multiple_of(4) && view <= LAST_VIEW {
            self.crowd.propose(self.random, view);
        }
        let voted = self.attend(beat);
        if beat % 4 == 1 && view <= LAST_VIEW {
            self.crowd.vote(self.random, view, voted.as_ref(), &self.bench.decided());
        }
    }

    /// The bench's part in a beat, and the log it voted for.
    fn attend(&mut self, beat: u32) -> Option<Log> {
        if self.sleeps(beat) {
            return None;
        }
        self.call(Call::Begin(beat));
        for message in self.crowd.arriving(self.random, beat) {
            self.stumble(beat);
            self.call(Call::Receive(message.write()));
        }
        self.stumble(beat);
        if self.random.percent(self.manner.sleep / 2) {
            return None;
        }
        let block = draft::offer(self.random, self.manner.offers);
        let priority = draft::priority(self.random);
        let reply = self.call(Call::Act { block, priority })?;
        self.stumble(beat);
        match reply {
            Reply::Acted(Some(message)) if message.kind == Kind::Log => Some(message.log),
            _ => None,
        }
    }

    /// Whether it misses this beat; one time in four several more, so that whole views pass it by.
    fn sleeps(&mut self, beat: u32) -> bool {
        if beat < self.wakes {
            return true;
        }
        let sleeps = self.random.percent(self.manner.sleep);
        if sleeps && self.random.percent(25) {
            self.wakes = beat + self.random.from_to(2, 13) as u32;
        }
        sleeps
    }

    /// At times a call that is refused here, or a message of the present view under any number.
    fn stumble(&mut self, beat: u32) {
        if !self.random.percent(self.manner.stumbles) {
            return;
        }
        let (n, _) = self.manner.numbers;
        let call = match self.random.below(4) {
            0 => Call::Begin(beat - beat.min(self.random.below(3) as u32)),
            1 => Call::Begin(LAST_BEAT + 1),
            2 => Call::Receive(vec![0; self.random.below(40)]),
            _ => Call::Receive(self.crowd.stray(self.random, n, beat / 4).write()),
        };
        self.call(call);
    }

    /// Adds a call, if there is room, and lets the model make it.
    fn call(&mut self, call: Call) -> Option<Reply> {
        let reply = self.bench.call(&call);
        self.draft.push(call).then_some(reply)
    }
}
