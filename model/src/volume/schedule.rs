//! Who keeps the rules, and who is awake when: drawn at random, then mended until the majority premise holds.
use crate::rolls::random::Random;

/// What a rule-keeper does at a beat.
#[derive(Clone, Copy, PartialEq, Eq, Debug)]
pub enum Presence {
    Skips,
    /// It begins the beat and gathers, and does not act.
    Begins,
    Awake,
}

pub struct Schedule {
    pub n: u8,
    pub keepers: Vec<u8>,
    pub breakers: Vec<u8>,
    pub last_beat: u32,
    presence: Vec<Vec<Presence>>,
}

impl Schedule {
    /// Rule-keepers are more than rule-breakers, and in every view enough of them are awake at both beats.
    pub fn draw(random: &mut Random) -> Schedule {
        let mut schedule = Schedule::people(random);
        let awake_percent = [100, 100, 92, 75, 45, 20, 0];
        for _ in &schedule.keepers {
            let percent = random.pick(&awake_percent);
            let row = (0..=schedule.last_beat).map(|_| presence(random, percent)).collect();
            schedule.presence.push(row);
        }
        for view in 0..=schedule.last_beat / 4 {
            schedule.wake(random, view);
        }
        schedule
    }

    /// The same, but that in some view too few are awake for the majority premise.
    pub fn draw_outnumbered(random: &mut Random) -> Schedule {
        let mut schedule = Schedule::draw(random);
        let view = 1 + random.below(schedule.last_beat as usize / 4) as u32;
        while schedule.members(view).len() > schedule.breakers.len() {
            let place = random.pick(&schedule.members(view));
            let beat = random.pick(&[4 * view - 1, 4 * view + 1]);
            schedule.presence[place][beat as usize] = random.pick(&[Presence::Skips, Presence::Begins]);
        }
        schedule
    }

    fn people(random: &mut Random) -> Schedule {
        let n = random.pick(&[1, 2, 3, 3, 4, 4, 4, 5, 5, 5, 5, 6, 7, 7, 8, 9, 10, 11, 12]);
        let most = (n - 1) / 2;
        let breakers = if random.percent(70) { most } else { random.below(most + 1) };
        let mut numbers: Vec<u8> = (0..n as u8).collect();
        random.shuffle(&mut numbers);
        let keepers = numbers.split_off(breakers);
        // The last view's majority is asked for as soon as its first beat begins, so no volume ends there.
        let last_beat = 4 * (3 + random.below(6) as u32) + 1 + random.below(3) as u32;
        Schedule {
            n: n as u8,
            keepers,
            breakers: numbers,
            last_beat,
            presence: vec![],
        }
    }

    pub fn at(&self, place: usize, beat: u32) -> Presence {
        self.presence[place].get(beat as usize).copied().unwrap_or(Presence::Skips)
    }

    /// The rule-keepers that begin a beat, by their places.
    pub fn gathering(&self, beat: u32) -> Vec<usize> {
        (0..self.keepers.len())
            .filter(|&place| self.at(place, beat) != Presence::Skips)
            .collect()
    }

    /// The rule-keepers awake at both beats that the majority premise looks at.
    fn members(&self, view: u32) -> Vec<usize> {
        let awake = |place: usize, beat: u32| self.at(place, beat) == Presence::Awake;
        let both = |&place: &usize| (view == 0 || awake(place, 4 * view - 1)) && awake(place, 4 * view + 1);
        (0..self.keepers.len()).filter(both).collect()
    }

    /// Wakes rule-keepers, drawn at random, until they outnumber the rule-breakers.
    fn wake(&mut self, random: &mut Random, view: u32) {
        while self.members(view).len() <= self.breakers.len() {
            let place = random.below(self.keepers.len());
            self.presence[place][4 * view as usize + 1] = Presence::Awake;
            if view > 0 {
                self.presence[place][4 * view as usize - 1] = Presence::Awake;
            }
        }
    }
}

fn presence(random: &mut Random, percent: usize) -> Presence {
    match random.percent(percent) {
        true => Presence::Awake,
        false if percent == 0 => Presence::Skips,
        false => random.pick(&[Presence::Skips, Presence::Skips, Presence::Begins]),
    }
}
