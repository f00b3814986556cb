//! Stories made by hand.
use crate::history::bench::{Rules, Word};
use crate::history::message::{Block, Log, Message};
use crate::sketch::schedule::{Schedule, Tell};
use crate::sketch::story::{Act, Agreement, BeatRun, BenchRun, GradeRead, Run, Snapshot, Story, Take};
use crate::volume::schedule::Presence;
use std::collections::BTreeMap;

/// A log of blocks with one entry each.
pub fn log(names: &[u64]) -> Log {
    names.iter().map(|&name| Block { name, count: 1 }).collect()
}

/// Everyone awake from `first_beat` on, nothing offered, told or astray.
pub fn schedule(title: &str, n: u8, keepers: u8, [first_beat, last_beat]: [u32; 2]) -> Schedule {
    let beats = (last_beat - first_beat) as usize + 1;
    Schedule {
        title: title.to_string(),
        n,
        keepers: (0..keepers).collect(),
        first_beat,
        last_beat,
        mistake: None,
        presence: vec![vec![Presence::Awake; beats]; keepers.into()],
        offers: vec![],
        tells: vec![],
        fates: vec![],
    }
}

/// A rule-breaker hands over its message.
pub fn tell(schedule: &mut Schedule, beat: u32, to: &[u8], message: Message) {
    let (teller, to) = (message.sender, to.to_vec());
    schedule.tells.push(Tell {
        teller,
        beat,
        to,
        message,
    });
}

pub fn present(schedule: &mut Schedule, own: u8, beats: &[u32], presence: Presence) {
    for &beat in beats {
        schedule.presence[usize::from(own)][(beat - schedule.first_beat) as usize] = presence;
    }
}

pub fn story(mut schedule: Schedule, plays: Vec<Play>) -> Story {
    let runs: Vec<Run> = plays.into_iter().map(|play| play.run).collect();
    schedule.mistake = runs.get(1).map(|run| run.rules);
    Story { schedule, runs }
}

/// A run as it is made up.
pub struct Play {
    pub run: Run,
}

impl Play {
    /// Everyone does as the schedule has it and nothing comes of it; what is told is answered first.
    pub fn new(schedule: &Schedule, rules: Rules) -> Play {
        let bench = |(&own, presence): (&u8, &Vec<Presence>)| BenchRun {
            own,
            roll: vec![],
            text: String::new(),
            beats: (schedule.first_beat..)
                .zip(presence)
                .map(|(at, &presence)| beat(schedule, own, at, presence))
                .collect(),
        };
        let run = Run {
            rules,
            benches: schedule.keepers.iter().zip(&schedule.presence).map(bench).collect(),
            breaches: vec![],
            own_missed: false,
            counted: vec![],
            broken: vec![],
        };
        Play { run }
    }

    pub fn at(&mut self, own: u8, beat: u32) -> &mut BeatRun {
        let bench = self
            .run
            .benches
            .iter_mut()
            .find(|bench| bench.own == own)
            .expect("a rule-keeper");
        bench
            .beats
            .iter_mut()
            .find(|at| at.beat == beat)
            .expect("a beat of the schedule")
    }

    pub fn act(&mut self, own: u8, beat: u32) -> &mut Act {
        self.at(own, beat).act.as_mut().expect("awake")
    }

    pub fn makes(&mut self, beat: u32, made: Message) {
        let own = made.sender;
        self.act(own, beat).made = Some(made);
    }

    /// These read the grade of their beat, of the view before, supported by so many of so many.
    pub fn read(&mut self, owns: &[u8], beat: u32, names: Option<&[u64]>, (supporters, senders): (usize, usize)) {
        for &own in owns {
            self.act(own, beat).grade = GradeRead::Read {
                grade: (beat % 4) as u8,
                view: beat / 4 - 1,
                snapped: true,
                log: names.map(log),
                supporters,
                senders,
            };
        }
    }

    pub fn snapshot(&mut self, owns: &[u8], beat: u32, senders: &[u8]) {
        for &own in owns {
            let (number, view) = ((beat % 4) as u8 - 1, beat / 4);
            let senders = senders.iter().copied().collect();
            self.act(own, beat).snapshot = Some(Snapshot { number, view, senders });
        }
    }

    /// Decides, and from then on it stands.
    pub fn decide(&mut self, own: u8, beat: u32, names: &[u64]) {
        self.act(own, beat).decided = Some(log(names));
        let bench = self
            .run
            .benches
            .iter_mut()
            .find(|bench| bench.own == own)
            .expect("a rule-keeper");
        for act in bench
            .beats
            .iter_mut()
            .filter(|at| at.beat >= beat)
            .filter_map(|at| at.act.as_mut())
        {
            act.standing = log(names);
        }
    }

    /// What was handed over by a rule-keeper.
    pub fn take(&mut self, own: u8, beat: u32, message: Message, answer: Result<Word, u8>) {
        let teller = None;
        self.at(own, beat).takes.push(Take { teller, message, answer });
    }

    /// Who is known as an equivocator at the end of the gathering.
    pub fn equivocators(&mut self, own: u8, beat: u32, view: u32, equivocators: &[u8]) {
        self.at(own, beat).agreements.push(Agreement {
            view,
            voters: BTreeMap::new(),
            equivocators: equivocators.iter().copied().collect(),
            one: None,
            two: None,
        });
    }
}

fn beat(schedule: &Schedule, own: u8, beat: u32, presence: Presence) -> BeatRun {
    let told = schedule
        .tells
        .iter()
        .filter(|tell| tell.beat == beat && tell.to.contains(&own));
    let take = |tell: &Tell| Take {
        teller: Some(tell.teller),
        message: tell.message.clone(),
        answer: Ok(Word::First),
    };
    let act = Act {
        grade: if beat < 3 { GradeRead::ViewZero } else { GradeRead::NoneNow },
        made: None,
        decided: None,
        standing: vec![],
        parted: false,
        snapshot: None,
    };
    BeatRun {
        beat,
        presence,
        takes: told.map(take).collect(),
        agreements: vec![],
        act: (presence == Presence::Awake).then_some(act),
    }
}
