//! One volume played from its seed: the beats in turn, and in each the gatherings and acts of the rule-keepers in any order.
use super::adversary::Adversary;
use super::benches::{Volume, NO_BLOCK};
use super::post::Withheld;
use super::premises::Premise;
use super::rubbish::refused_call;
use super::schedule::{Presence, Schedule};
use crate::history::bench::Rules;
use crate::history::message::{Block, Message};
use crate::rolls::random::Random;
use std::collections::HashSet;

/// The purposes that a volume's seed serves.
const STAGE: u64 = 100;
const ADVERSARY: u64 = 101;

struct Stage {
    random: Random,
    schedule: Schedule,
    volume: Volume,
    adversary: Adversary,
    /// PROPOSALs under way: the beat at which each is handed over, to whom, and its bytes.
    proposals: Vec<(u32, usize, Vec<u8>)>,
    loss_percent: usize,
    refused_percent: usize,
}

/// The volume of a seed, by these rules, with all premises kept but the one dropped.
pub fn play(seed: u64, rules: Rules, dropped: Option<Premise>) -> Volume {
    let mut stage = Stage::set(seed, rules, dropped);
    for beat in 0..=stage.schedule.last_beat {
        stage.play_beat(beat);
    }
    stage.volume
}

impl Stage {
    fn set(seed: u64, rules: Rules, dropped: Option<Premise>) -> Stage {
        let mut random = Random::new(seed, STAGE);
        let schedule = match dropped {
            Some(Premise::Majority) => Schedule::draw_outnumbered(&mut random),
            _ => Schedule::draw(&mut random),
        };
        let drops = |premise: Premise| dropped == Some(premise);
        let withheld = drops(Premise::Delivery).then(|| withheld(&mut random, &schedule));
        let forging = if drops(Premise::Numbers) { 1 + random.below(3) } else { 0 };
        let forged = schedule.keepers.iter().copied().take(forging).collect();
        let volume = Volume::open(rules, schedule.n, &schedule.keepers, withheld.unwrap_or_default());
        let adversary = Adversary::new(Random::new(seed, ADVERSARY), &schedule, forged);
        let loss_percent = random.pick(&[0, 20, 50, 80, 100]);
        let refused_percent = random.pick(&[0, 0, 5, 15]);
        Stage {
            random,
            schedule,
            volume,
            adversary,
            proposals: vec![],
            loss_percent,
            refused_percent,
        }
    }

    /// The adversary plans proposals before beat 4v, and votes at 4v+1: at times before the rule-keepers vote, mostly after.
    fn play_beat(&mut self, beat: u32) {
        let (view, place_in_view) = (beat / 4, beat % 4);
        let early = self.random.percent(15);
        match place_in_view {
            0 => self.adversary.plan_proposals(&self.volume, &self.schedule, view),
            1 if early => self.adversary.plan_votes(&self.volume, &self.schedule, view),
            _ => {}
        }
        self.gather_and_act(beat);
        if place_in_view == 1 && !early {
            self.adversary.plan_votes(&self.volume, &self.schedule, view);
        }
    }

    fn gather_and_act(&mut self, beat: u32) {
        let mut places = self.schedule.gathering(beat);
        self.random.shuffle(&mut places);
        for &place in &places {
            self.maybe_refused(place);
            self.volume.begin(place, beat);
        }
        for _ in 0..self.random.below(3) {
            self.random.shuffle(&mut places);
            for &place in &places {
                self.hand_some(place, beat);
            }
        }
        self.random.shuffle(&mut places);
        for &place in &places {
            self.end_gathering(place, beat);
        }
    }

    /// Part of what may come in this beat, and at times what is there already.
    fn hand_some(&mut self, place: usize, beat: u32) {
        self.maybe_refused(place);
        let mut bytes = self.volume.post.ready(place, beat);
        bytes.extend(self.adversary.told(place, beat));
        self.random.shuffle(&mut bytes);
        let share = self.random.pick(&[0, 30, 70, 100]);
        for bytes in bytes {
            if self.random.percent(share) {
                self.hand(place, &bytes);
            }
        }
    }

    /// All that is due, and all that the adversary tells in this beat, before the act if there is one.
    fn end_gathering(&mut self, place: usize, beat: u32) {
        let awake = self.schedule.at(place, beat) == Presence::Awake;
        let mut bytes = self.adversary.told(place, beat);
        let proposed = self.proposals.iter().filter(|(at, to, _)| (*at, *to) == (beat, place));
        bytes.extend(proposed.map(|(_, _, bytes)| bytes.clone()));
        bytes.extend(self.volume.post.due(place, beat, true));
        self.random.shuffle(&mut bytes);
        for bytes in bytes {
            self.hand(place, &bytes);
        }
        self.hand_some(place, beat);
        if awake {
            self.act(place, beat);
            self.maybe_refused(place);
        }
    }

    fn hand(&mut self, place: usize, bytes: &[u8]) {
        self.volume.hand(place, bytes);
        if self.random.percent(5) {
            self.volume.hand(place, bytes);
        }
    }

    fn act(&mut self, place: usize, beat: u32) {
        let (name, count) = (1 + self.random.bits() % 900, self.random.below(5) as u16);
        let offers = self.random.percent(75);
        let block = if offers { Block { name, count } } else { NO_BLOCK };
        let priority = self.random.bits() % 20;
        if let Some(proposal) = self.volume.act(place, block, priority) {
            self.send_proposal(place, beat, &proposal);
        }
    }

    /// Any PROPOSAL may be lost, told to some only, or late; those of a beat past the window are refused.
    fn send_proposal(&mut self, from: usize, beat: u32, proposal: &Message) {
        for to in (0..self.volume.keepers.len()).filter(|&to| to != from) {
            if !self.random.percent(self.loss_percent) {
                let late = self.random.pick(&[0, 1, 1, 1, 1, 1, 2]);
                self.proposals.push((beat + late, to, proposal.write()));
            }
        }
    }

    fn maybe_refused(&mut self, place: usize) {
        let keeper = &mut self.volume.keepers[place];
        if self.random.percent(self.refused_percent) {
            keeper.call(refused_call(&mut self.random, keeper));
        }
    }
}

/// For one view to three, LOGs do not cross between two camps of rule-keepers.
fn withheld(random: &mut Random, schedule: &Schedule) -> HashSet<Withheld> {
    let camp: Vec<u8> = schedule.keepers.iter().copied().filter(|_| random.percent(50)).collect();
    let first = random.below(2) as u32;
    let views = first..=first + random.below(3) as u32;
    let across = |to: &u8, sender: &u8| camp.contains(to) != camp.contains(sender);
    let mut found = HashSet::new();
    for view in views {
        for to in &schedule.keepers {
            let senders = schedule.keepers.iter().filter(|sender| across(to, sender));
            found.extend(senders.map(|&sender| (*to, sender, view)));
        }
    }
    found
}
