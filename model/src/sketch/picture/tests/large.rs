//! The largest story.
use super::builder::{log, present, schedule, story, tell, Play};
use crate::history::bench::Rules;
use crate::sketch::schedule::Schedule;
use crate::sketch::story::Story;
use crate::volume::messages::{proposal, vote};
use crate::volume::schedule::Presence;

/// As many benches and beats as there can be, 20 of them rule-keepers, each rule-breaker with something to tell.
pub fn large() -> Story {
    let mut schedule = schedule("As many benches and beats as a sketch may have", 32, 20, [0, 47]);
    for own in 0..20u8 {
        let absent = if own % 3 == 0 { Presence::Begins } else { Presence::Skips };
        let beats: Vec<u32> = (0..48).filter(|beat| (beat * 7 + u32::from(own) * 5) % 11 == 0).collect();
        present(&mut schedule, own, &beats, absent);
    }
    for breaker in 20..32u8 {
        for view in (0..11).filter(|view| (view + u32::from(breaker)) % 3 == 0) {
            tell_two_stories(&mut schedule, breaker, view);
        }
    }
    let mut play = Play::new(&schedule, Rules::Paper);
    for beat in 0..48u32 {
        everyone_acts(&mut play, &awake(&schedule, beat), beat);
    }
    play.run.counted = (0..12).map(|view| (view, awake(&schedule, 4 * view + 1))).collect();
    story(schedule, vec![play])
}

fn awake(schedule: &Schedule, beat: u32) -> Vec<u8> {
    let awake = |own: &u8| schedule.presence[usize::from(*own)][beat as usize] == Presence::Awake;
    (0..20).filter(awake).collect()
}

/// One to one half of those awake, the other to the other.
fn tell_two_stories(schedule: &mut Schedule, breaker: u8, view: u32) {
    let beat = 4 * view + 2;
    let there = awake(schedule, beat);
    let (some, others) = there.split_at(there.len() / 2);
    for (to, name) in [(some, 900), (others, 800)] {
        tell(schedule, beat, to, vote(breaker, view, log(&[name + u64::from(view)])));
    }
}

/// A block is added and decided in every view.
fn everyone_acts(play: &mut Play, there: &[u8], beat: u32) {
    let (view, names) = (beat / 4, (100..112).collect::<Vec<u64>>());
    let (now, before) = (&names[..view as usize + 1], &names[..view as usize]);
    for (place, &own) in there.iter().enumerate() {
        match beat % 4 {
            0 if place == 0 => play.makes(beat, proposal(own, view, 9, log(now))),
            1 => play.makes(beat, vote(own, view, log(now))),
            2 if view > 0 => play.decide(own, beat, before),
            _ => {}
        }
    }
    if view > 0 && beat % 4 < 3 {
        play.read(there, beat, Some(before), (19, 31));
    }
    if beat % 4 > 1 {
        play.snapshot(there, beat, there);
    }
}
