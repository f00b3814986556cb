//! Small schedules for tests.
use super::schedule::{Fate, Offer, Schedule, Tell};
use crate::history::bench::Rules;
use crate::history::message::{Block, Kind, Log};
use crate::volume::messages;
use crate::volume::schedule::Presence;

pub fn log(names: &[u64]) -> Log {
    names.iter().map(|&name| Block { name, count: 1 }).collect()
}

/// The lowest `keepers` numbers of `n` keep the rules and are awake from beat 0 to the last.
pub fn awake(n: u8, keepers: u8, last_beat: u32) -> Schedule {
    Schedule {
        title: "A sample".to_string(),
        n,
        keepers: (0..keepers).collect(),
        first_beat: 0,
        last_beat,
        mistake: None,
        presence: vec![vec![Presence::Awake; last_beat as usize + 1]; usize::from(keepers)],
        offers: vec![],
        tells: vec![],
        fates: vec![],
    }
}

/// A LOG under the teller's own number.
pub fn vote(teller: u8, beat: u32, to: &[u8], view: u32, names: &[u64]) -> Tell {
    Tell {
        teller,
        beat,
        to: to.to_vec(),
        message: messages::vote(teller, view, log(names)),
    }
}

/// A PROPOSAL under the teller's own number, of priority 2.
pub fn proposal(teller: u8, beat: u32, to: &[u8], view: u32, names: &[u64]) -> Tell {
    Tell {
        teller,
        beat,
        to: to.to_vec(),
        message: messages::proposal(teller, view, 2, log(names)),
    }
}

pub fn offer(bench: u8, beat: u32, name: u64) -> Offer {
    Offer {
        bench,
        beat,
        block: Block { name, count: 1 },
        priority: 1,
    }
}

/// What becomes of a sender's LOG of view 0 on its way to one bench.
pub fn fate(sender: u8, to: u8, at: Option<u32>) -> Fate {
    Fate {
        kind: Kind::Log,
        view: 0,
        sender,
        log: None,
        to: vec![to],
        at,
    }
}

/// One bench asleep over snapshot two while rule-breaker 3 tells two stories.
pub fn two_stories() -> Schedule {
    let mut schedule = awake(4, 3, 10);
    for beat in [0, 3, 4, 5] {
        schedule.presence[2][beat] = Presence::Skips;
    }
    schedule.presence[2][4] = Presence::Begins;
    schedule.offers = vec![offer(0, 0, 5), offer(0, 4, 6)];
    schedule.tells = vec![
        vote(3, 2, &[0], 0, &[7]),
        vote(3, 2, &[1], 0, &[8]),
        vote(3, 4, &[2], 0, &[7]),
    ];
    schedule
}

/// Benches 0 and 1 vote [5], bench 2 votes [6, 7]; the rule-breaker's [6, 7] after snapshot one makes it half and half.
pub fn half_is_enough() -> Schedule {
    let mut schedule = awake(4, 3, 10);
    schedule.mistake = Some(Rules::HalfIsEnough);
    schedule.tells = vec![
        proposal(3, 1, &[0, 1], 0, &[5]),
        proposal(3, 1, &[2], 0, &[6, 7]),
        vote(3, 3, &[0, 1, 2], 0, &[6, 7]),
    ];
    schedule
}

/// The rule-breaker's [5] is in bench 0's snapshot one alone; at beat 3 it tells all a second story.
pub fn snapshot_judges() -> Schedule {
    let mut schedule = awake(4, 3, 10);
    schedule.mistake = Some(Rules::SnapshotJudges);
    schedule.tells = vec![
        proposal(3, 1, &[0, 1], 0, &[5]),
        proposal(3, 1, &[2], 0, &[6]),
        vote(3, 2, &[0], 0, &[5]),
        vote(3, 3, &[0, 1, 2], 0, &[6]),
        proposal(3, 5, &[0, 1, 2], 1, &[8]),
    ];
    schedule
}

/// Two benches propose and vote apart, and bench 0's vote never reaches bench 1.
pub fn one_log_withheld() -> Schedule {
    let mut schedule = awake(2, 2, 14);
    schedule.offers = vec![offer(0, 0, 5), offer(1, 0, 6), offer(0, 4, 7), offer(0, 8, 8)];
    let lost = |sender, view| Fate {
        kind: Kind::Proposal,
        view,
        ..fate(sender, 1 - sender, None)
    };
    schedule.fates = vec![fate(0, 1, None), lost(0, 0), lost(1, 0), lost(0, 1)];
    schedule
}
