//! A hand-made volume: who sleeps when, what is offered, and what is told to whom.
use super::benches::{Volume, NO_BLOCK};
use super::messages;
use super::post::Withheld;
use super::premises::Premise;
use crate::history::bench::Rules;
use crate::history::message::{Block, Log, Message};

/// A message told to some rule-keepers in one beat.
#[derive(Clone)]
pub struct Tell {
    beat: u32,
    to: Vec<u8>,
    message: Message,
}

impl Tell {
    fn new(beat: u32, to: &[u8], message: Message) -> Tell {
        let to = to.to_vec();
        Tell { beat, to, message }
    }
}

/// A LOG of this sender and view told at this beat.
pub fn vote(beat: u32, to: &[u8], sender: u8, view: u32, names: &[u64]) -> Tell {
    Tell::new(beat, to, messages::vote(sender, view, log_of(names)))
}

/// A PROPOSAL of this sender and view told at this beat, of a priority above those of the rule-keepers.
pub fn proposal(beat: u32, to: &[u8], sender: u8, view: u32, names: &[u64]) -> Tell {
    Tell::new(beat, to, messages::proposal(sender, view, PRIORITY + 1, log_of(names)))
}

fn log_of(names: &[u64]) -> Log {
    names.iter().map(|&name| Block { name, count: 1 }).collect()
}

/// The priority that rule-keepers act with.
const PRIORITY: u64 = 1;

#[derive(Clone)]
pub struct Scenario {
    /// The rules under which it ends in a conflict.
    pub rules: Rules,
    /// The premise that it breaks.
    pub dropped: Option<Premise>,
    pub n: u8,
    /// How many keep the rules: those of the lowest numbers.
    pub keepers: u8,
    pub last_beat: u32,
    /// Who sleeps at which beat.
    pub asleep: Vec<(u8, u32)>,
    /// Blocks that rule-keepers offer: who, when, the name. Their PROPOSALs are lost.
    pub offers: Vec<(u8, u32, u64)>,
    pub tells: Vec<Tell>,
    /// LOGs told under a rule-keeper's number that it never made.
    pub forged: Vec<Tell>,
    pub withheld: Vec<Withheld>,
}

impl Scenario {
    /// Nothing told, everyone awake.
    pub fn new(rules: Rules, dropped: Option<Premise>, n: u8, keepers: u8, last_beat: u32) -> Scenario {
        let (asleep, offers, tells, forged, withheld) = (vec![], vec![], vec![], vec![], vec![]);
        Scenario {
            rules,
            dropped,
            n,
            keepers,
            last_beat,
            asleep,
            offers,
            tells,
            forged,
            withheld,
        }
    }

    /// The same schedule with its premise kept: everyone awake, nothing forged, nothing withheld.
    pub fn mended(&self) -> Scenario {
        let mut mended = self.clone();
        match self.dropped {
            Some(Premise::Delivery) => mended.withheld.clear(),
            Some(Premise::Numbers) => mended.forged.clear(),
            Some(Premise::Majority) => mended.asleep.clear(),
            None => {}
        }
        mended
    }

    /// The benches in turn at every beat.
    pub fn play(&self, rules: Rules) -> Volume {
        let numbers: Vec<u8> = (0..self.keepers).collect();
        let mut volume = Volume::open(rules, self.n, &numbers, self.withheld.iter().copied().collect());
        for beat in 0..=self.last_beat {
            for own in numbers.iter().filter(|&&own| !self.asleep.contains(&(own, beat))) {
                self.play_bench(&mut volume, *own, beat);
            }
        }
        volume
    }

    /// All that is due and all that is told, then the act.
    fn play_bench(&self, volume: &mut Volume, own: u8, beat: u32) {
        let place = usize::from(own);
        volume.begin(place, beat);
        volume.hand_due(place, beat);
        let told = self.tells.iter().chain(&self.forged);
        for tell in told.filter(|tell| tell.beat == beat && tell.to.contains(&own)) {
            volume.hand(place, &tell.message.write());
        }
        let offered = self.offers.iter().find(|(who, when, _)| (*who, *when) == (own, beat));
        let block = offered.map_or(NO_BLOCK, |&(_, _, name)| Block { name, count: 1 });
        volume.act(place, block, PRIORITY);
    }
}
