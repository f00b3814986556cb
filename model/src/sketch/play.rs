//! A schedule played out: beat by beat the benches take their turns by number.
use super::machine::model::Model;
use super::machine::proved::Proved;
use super::machine::Machine;
use super::page::Page;
use super::post::courses;
use super::schedule::Schedule;
use super::story::{Act, BeatRun, BenchRun, GradeRead, Run, Snapshot, Story, Take};
use crate::history::bench::{Call, Reply, Rules};
use crate::history::message::{Message, LAST_VIEW};
use crate::history::roll::{write_roll, MOST_EVENTS, MOST_ROLL};
use crate::volume::benches::{Volume, NO_BLOCK};
use crate::volume::keeper::Keeper;
use crate::volume::post::Post;
use crate::volume::reading::Reading;
use crate::volume::rolls::has_room;
use crate::volume::schedule::Presence;
use crate::volume::{premises, promise};
use std::fmt;

/// A bench whose list of calls no roll can hold, and the beat of the first call too many.
#[derive(Clone, PartialEq, Eq, Debug)]
pub struct Overlong {
    pub bench: u8,
    pub beat: u32,
}

impl fmt::Display for Overlong {
    fn fmt(&self, out: &mut fmt::Formatter) -> fmt::Result {
        let Overlong { bench, beat } = self;
        write!(
            out,
            "bench {bench}, at beat {beat}: its list of calls is too long for a roll "
        )?;
        write!(out, "(at most {MOST_EVENTS} calls and {MOST_ROLL} bytes)")
    }
}

/// The schedule by the rules, in the proved code; and then, if it names a mistake, with that, in the model.
pub fn play(schedule: &Schedule) -> Result<Story, Overlong> {
    let rules = std::iter::once(Rules::Paper).chain(schedule.mistake);
    let runs = rules.map(|rules| Stage::set(schedule, rules).play());
    Ok(Story {
        schedule: schedule.clone(),
        runs: runs.collect::<Result<_, _>>()?,
    })
}

struct Stage<'a> {
    schedule: &'a Schedule,
    rules: Rules,
    volume: Volume,
}

impl Stage<'_> {
    fn set(schedule: &Schedule, rules: Rules) -> Stage<'_> {
        let keeper = |&own: &u8| Keeper::with(schedule.n, own, machine(rules, schedule.n, own));
        let keepers = schedule.keepers.iter().map(keeper).collect();
        let post = Post::new(schedule.keepers.clone(), courses(schedule.fates.clone()));
        Stage {
            schedule,
            rules,
            volume: Volume::with(schedule.n, keepers, post),
        }
    }

    fn play(mut self) -> Result<Run, Overlong> {
        let mut beats: Vec<Vec<BeatRun>> = self.schedule.keepers.iter().map(|_| vec![]).collect();
        for beat in self.schedule.first_beat..=self.schedule.last_beat {
            for (place, beats) in beats.iter_mut().enumerate() {
                beats.push(self.play_bench(place, beat)?);
            }
        }
        let lists: Vec<Reading> = self.volume.keepers.iter().map(Reading::of).collect();
        Ok(Run {
            rules: self.rules,
            breaches: premises::breaches(self.schedule.n, &lists),
            own_missed: premises::own_missed(&lists),
            counted: premises::counted(&lists),
            broken: promise::broken(&self.volume.keepers),
            benches: self.volume.keepers.iter().zip(beats).map(bench_run).collect(),
        })
    }

    fn play_bench(&mut self, place: usize, beat: u32) -> Result<BeatRun, Overlong> {
        let presence = self.schedule.presence[place][(beat - self.schedule.first_beat) as usize];
        let (mut takes, mut agreements, mut act) = (vec![], vec![], None);
        if presence != Presence::Skips {
            self.check_room(place, beat, &Call::Begin(beat))?;
            self.volume.begin(place, beat);
            takes = self.gather(place, beat, presence)?;
            let page = self.volume.keepers[place].page();
            if presence == Presence::Awake {
                act = Some(self.act(place, beat, &page)?);
            }
            agreements = page.agreements;
        }
        Ok(BeatRun {
            beat,
            presence,
            takes,
            agreements,
            act,
        })
    }

    /// What comes from rule-keepers, and then what rule-breakers tell.
    fn gather(&mut self, place: usize, beat: u32, presence: Presence) -> Result<Vec<Take>, Overlong> {
        let own = self.schedule.keepers[place];
        let due = self.volume.post.due(place, beat, presence == Presence::Awake);
        let sent = due.iter().map(|bytes| Message::read(self.schedule.n, bytes));
        let sent = sent.map(|message| (None, message.expect("a rule-keeper sends messages")));
        let told = self.schedule.tells.iter();
        let told = told.filter(|tell| tell.beat == beat && tell.to.contains(&own));
        let told = told.map(|tell| (Some(tell.teller), tell.message.clone()));
        let handed: Vec<(Option<u8>, Message)> = sent.chain(told).collect();
        let takes = handed
            .into_iter()
            .map(|(teller, message)| self.hand(place, beat, teller, message));
        takes.collect()
    }

    fn hand(&mut self, place: usize, beat: u32, teller: Option<u8>, message: Message) -> Result<Take, Overlong> {
        let bytes = message.write();
        self.check_room(place, beat, &Call::Receive(bytes.clone()))?;
        let answer = match self.volume.hand(place, &bytes) {
            Reply::Took(word) => Ok(word),
            Reply::Refused(number) => Err(number),
            Reply::Begun | Reply::Acted(_) => unreachable!("Receive gives a word or a refusal"),
        };
        Ok(Take { teller, message, answer })
    }

    /// The act of a gathering at whose end the bench held this page.
    fn act(&mut self, place: usize, beat: u32, page: &Page) -> Result<Act, Overlong> {
        let own = self.schedule.keepers[place];
        let offer = self
            .schedule
            .offers
            .iter()
            .find(|offer| (offer.bench, offer.beat) == (own, beat));
        let (block, priority) = offer.map_or((NO_BLOCK, 0), |offer| (offer.block, offer.priority));
        self.check_room(place, beat, &Call::Act { block, priority })?;
        if let Some(proposal) = self.volume.act(place, block, priority) {
            self.volume.post.send(place, beat, &proposal);
        }
        let keeper = &self.volume.keepers[place];
        let entry = keeper.list.last().expect("an act was listed");
        let Reply::Acted(made) = entry.reply.clone() else {
            unreachable!("nothing refuses an act in a gathering");
        };
        Ok(Act {
            grade: grade_read(self.rules, beat, page),
            made,
            decided: entry.decided.clone(),
            standing: entry.standing.clone(),
            parted: entry.parted,
            snapshot: snapshot_taken(beat, &keeper.page()),
        })
    }

    fn check_room(&self, place: usize, beat: u32, call: &Call) -> Result<(), Overlong> {
        let keeper = &self.volume.keepers[place];
        let bench = keeper.own;
        has_room(keeper, call).then_some(()).ok_or(Overlong { bench, beat })
    }
}

/// The paper's rules run in the proved code, mistakes in the model.
fn machine(rules: Rules, n: u8, own: u8) -> Box<dyn Machine> {
    let in_range = "a sketch has numbers in range";
    match rules {
        Rules::Paper => Box::new(Proved::open(n, own).expect(in_range)),
        mistake => Box::new(Model::open(mistake, n, own).expect(in_range)),
    }
}

fn bench_run((keeper, beats): (&Keeper, Vec<BeatRun>)) -> BenchRun {
    let calls: Vec<Call> = keeper.list.iter().map(|entry| entry.call.clone()).collect();
    BenchRun {
        own: keeper.own,
        roll: write_roll(keeper.n, keeper.own, &calls),
        text: keeper.text().to_string(),
        beats,
    }
}

/// What the act of this beat reads, by the page before it.
fn grade_read(rules: Rules, beat: u32, page: &Page) -> GradeRead {
    let (next, grade) = (beat / 4, (beat % 4) as u8);
    if grade == 3 || (next > LAST_VIEW && grade < 2) {
        return GradeRead::NoneNow;
    }
    let Some(view) = next.checked_sub(1) else {
        return GradeRead::ViewZero;
    };
    let agreement = page.agreement(view);
    let snapped = match grade {
        0 => true,
        _ if rules.snapshot_for(grade) == 1 => agreement.is_some_and(|agreement| agreement.one.is_some()),
        _ => agreement.is_some_and(|agreement| agreement.two.is_some()),
    };
    let count = page.reading.clone();
    GradeRead::Read {
        grade,
        view,
        snapped,
        log: count.log,
        supporters: count.supporters,
        senders: count.senders,
    }
}

/// The snapshot that the act of this beat took, by the page after it.
fn snapshot_taken(beat: u32, page: &Page) -> Option<Snapshot> {
    let view = beat / 4;
    let agreement = page.agreement(view)?;
    let (number, senders) = match beat % 4 {
        2 => (1, agreement.one.clone()?),
        3 => (2, agreement.two.clone()?),
        _ => return None,
    };
    Some(Snapshot { number, view, senders })
}

#[cfg(test)]
mod tests;
