//! The rule-breakers, led by one adversary that sees every rule-keeper's votes and knows who will be awake. It tries to split
//! the votes into two camps, to have a bench count a supporter that another knows for an equivocator, and to draw a lock back
//! so that a later vote can go elsewhere.
use super::benches::Volume;
use super::messages::{proposal, vote};
use super::plots::{steps, Plot, Whom, PLOTS};
use super::schedule::Schedule;
use crate::history::message::{conflict, Block, Log, Message};
use crate::rolls::random::Random;

/// A message told to one rule-keeper in one beat.
struct Tell {
    beat: u32,
    to: usize,
    bytes: Vec<u8>,
}

pub struct Adversary {
    random: Random,
    breakers: Vec<u8>,
    /// Numbers of rule-keepers that it forges LOGs of; none where the numbers premise is kept.
    forged: Vec<u8>,
    /// The rule-keepers of the first camp, by their places; the rest are the second.
    camp: Vec<bool>,
    tells: Vec<Tell>,
    /// What it proposed in this view, to one camp and the other.
    proposed: [Log; 2],
    /// The last name it gave a block.
    fresh: u64,
}

impl Adversary {
    pub fn new(random: Random, schedule: &Schedule, forged: Vec<u8>) -> Adversary {
        let camp = vec![false; schedule.keepers.len()];
        Adversary {
            random,
            breakers: schedule.breakers.clone(),
            forged,
            camp,
            tells: vec![],
            proposed: [vec![], vec![]],
            fresh: 1_000,
        }
    }

    /// What it tells a rule-keeper in this beat.
    pub fn told(&self, to: usize, beat: u32) -> Vec<Vec<u8>> {
        let told = self.tells.iter().filter(|tell| tell.to == to && tell.beat == beat);
        told.map(|tell| tell.bytes.clone()).collect()
    }

    /// Before beat 4v: which camps to make, and what to propose to each.
    pub fn plan_proposals(&mut self, volume: &Volume, schedule: &Schedule, view: u32) {
        self.tells.retain(|tell| tell.beat >= 4 * view);
        if self.random.percent(60) {
            self.camp = self.camp.iter().map(|_| self.random.percent(50)).collect();
        }
        let base = self.base(volume, view);
        self.proposed = [self.grow(&base), self.grow(&base)];
        let split = self.random.percent(50);
        // A PROPOSAL may bear anyone's number: the premise is about LOGs.
        let mut senders = self.breakers.clone();
        if self.random.percent(20) {
            senders.push(self.random.pick(&schedule.keepers));
        }
        for sender in senders {
            if self.random.percent(30) {
                continue;
            }
            let priority = u64::MAX - self.random.bits() % 3;
            let beat = 4 * view + self.random.below(2) as u32;
            for place in schedule.gathering(beat) {
                let log = self.proposed[usize::from(split && self.camp[place])].clone();
                self.tell(beat, place, &proposal(sender, view, priority, log));
            }
        }
    }

    /// A log to grow: mostly the one most voted for; at times a decided one cut short, which only a lock that was lost allows.
    fn base(&mut self, volume: &Volume, view: u32) -> Log {
        let mut voted = if view == 0 { vec![] } else { volume.voted(view - 1) };
        let place = self.random.below(volume.keepers.len());
        let mut base = match self.random.below(6) {
            0 | 1 => volume.keepers[place].standing(),
            2 if !voted.is_empty() => voted.swap_remove(self.random.below(voted.len())),
            _ => voted.into_iter().next().unwrap_or_default(),
        };
        let cut = self.random.pick(&[0, 0, 0, 1, 1, base.len()]);
        base.truncate(base.len().saturating_sub(cut));
        base
    }

    /// The log with one or two blocks of nobody after it.
    fn grow(&mut self, base: &[Block]) -> Log {
        let mut log = base.to_vec();
        for _ in 0..1 + usize::from(self.random.percent(30)) {
            self.fresh += 1;
            let (name, count) = (self.fresh, self.random.below(4) as u16);
            log.push(Block { name, count });
        }
        log
    }

    /// How each number's LOGs of this view are told, by what the rule-keepers voted for: mostly one plot for all.
    pub fn plan_votes(&mut self, volume: &Volume, schedule: &Schedule, view: u32) {
        let shared = self.random.percent(70).then(|| self.random.pick(&PLOTS));
        let mut stories = self.stories(volume, view);
        if self.random.percent(50) {
            stories.swap(0, 1);
        }
        for breaker in self.breakers.clone() {
            let plot = shared.unwrap_or_else(|| self.random.pick(&PLOTS));
            self.plan_vote(schedule, view, breaker, plot, &stories);
        }
        for number in self.forged.clone() {
            let plot = self.random.pick(&[Plot::TwoCamps, Plot::DrawsBack, Plot::Any, Plot::Silent]);
            self.plan_vote(schedule, view, number, plot, &stories);
        }
    }

    /// The log most voted for (before the votes, what it proposed); a rival, another one voted for if there is one; and one of
    /// nobody.
    fn stories(&mut self, volume: &Volume, view: u32) -> [Log; 3] {
        let mut voted = volume.voted(view);
        if voted.is_empty() {
            voted.extend(self.proposed.clone());
        }
        let most = voted.first().cloned().unwrap_or_default();
        let shorter = &most[..most.len().saturating_sub(1)];
        let rival = voted.iter().find(|log| conflict(log, &most)).cloned();
        let rival = rival.unwrap_or_else(|| self.grow(shorter));
        let of_nobody = if self.random.percent(50) { vec![] } else { self.grow(&[]) };
        [most, rival, of_nobody]
    }

    fn plan_vote(&mut self, schedule: &Schedule, view: u32, sender: u8, plot: Plot, stories: &[Log; 3]) {
        for step in steps(plot, &mut self.random) {
            let log = stories[step.story as usize].clone();
            let beat = 4 * view + step.offset;
            let whom = self.places(schedule, beat, step.whom);
            for place in schedule.gathering(beat).into_iter().filter(|place| whom.contains(place)) {
                self.tell(beat, place, &vote(sender, view, log.clone()));
            }
        }
    }

    fn places(&mut self, schedule: &Schedule, beat: u32, whom: Whom) -> Vec<usize> {
        match whom {
            Whom::Everyone => (0..self.camp.len()).collect(),
            Whom::FirstCamp => self.camp_places(false),
            Whom::SecondCamp => self.camp_places(true),
            Whom::Victims => self.victims(schedule, beat),
        }
    }

    /// One bench, or one camp, of those that gather at this beat.
    fn victims(&mut self, schedule: &Schedule, beat: u32) -> Vec<usize> {
        let gathering = schedule.gathering(beat);
        if gathering.is_empty() {
            return vec![];
        }
        let one = self.random.pick(&gathering);
        match self.random.percent(60) {
            true => vec![one],
            false => self.camp_places(self.camp[one]),
        }
    }

    fn camp_places(&self, camp: bool) -> Vec<usize> {
        (0..self.camp.len()).filter(|&place| self.camp[place] == camp).collect()
    }

    fn tell(&mut self, beat: u32, to: usize, message: &Message) {
        self.tells.push(Tell {
            beat,
            to,
            bytes: message.write(),
        });
    }
}
