//! The stories that are drawn in the tests.
use super::builder::{log, present, schedule, story, tell, Play};
pub use super::large::large;
pub use super::odd::odd;
pub use super::troubled::{across, breached, passed_on, withheld};
use crate::history::bench::{Rules, Word};
use crate::sketch::story::Story;
use crate::volume::messages::{proposal, vote};
use crate::volume::promise::{Broken, Decision};
use crate::volume::schedule::Presence;

/// Bench 3 tells two stories, bench 2 sleeps over snapshot two; [5] and then [5 6] are decided.
pub fn small() -> Story {
    let mut schedule = schedule("One bench asleep over a snapshot, one telling two stories", 4, 3, [0, 10]);
    present(&mut schedule, 2, &[0, 3, 5, 7, 8, 9, 10], Presence::Skips);
    present(&mut schedule, 2, &[4], Presence::Begins);
    tell(&mut schedule, 2, &[0], vote(3, 0, log(&[7])));
    tell(&mut schedule, 2, &[1], vote(3, 0, log(&[8])));
    tell(&mut schedule, 3, &[0], vote(3, 0, log(&[8])));
    tell(&mut schedule, 4, &[2], vote(3, 0, log(&[7])));
    let mut play = Play::new(&schedule, Rules::Paper);
    play.makes(0, proposal(0, 0, 9, log(&[5])));
    (0..3).for_each(|own| play.makes(1, vote(own, 0, log(&[5]))));
    play.snapshot(&[0, 1], 2, &[0, 1, 2, 3]);
    play.snapshot(&[2], 2, &[0, 1, 2]);
    play.at(0, 3).takes[0].answer = Ok(Word::Second);
    play.take(1, 3, vote(3, 0, log(&[7])), Ok(Word::Second));
    play.snapshot(&[0, 1], 3, &[0, 1, 2]);
    play.read(&[0, 1], 4, Some(&[5]), (3, 4));
    play.makes(4, proposal(0, 1, 9, log(&[5, 6])));
    play.read(&[0, 1], 5, Some(&[5]), (3, 4));
    (0..2).for_each(|own| play.makes(5, vote(own, 1, log(&[5, 6]))));
    play.take(2, 6, vote(3, 0, log(&[8])), Ok(Word::Second));
    play.read(&[0, 1, 2], 6, Some(&[5]), (3, 4));
    (0..3).for_each(|own| play.decide(own, 6, &[5]));
    play.snapshot(&[0, 1, 2], 6, &[0, 1]);
    play.snapshot(&[0, 1], 7, &[0, 1]);
    play.read(&[0, 1], 8, Some(&[5, 6]), (2, 2));
    play.read(&[0, 1], 9, Some(&[5, 6]), (2, 2));
    (0..2).for_each(|own| play.makes(9, vote(own, 2, log(&[5, 6]))));
    play.read(&[0, 1], 10, Some(&[5, 6]), (2, 2));
    (0..2).for_each(|own| play.decide(own, 10, &[5, 6]));
    play.snapshot(&[0, 1], 10, &[0, 1]);
    play.run.counted = vec![(0, vec![0, 1, 2]), (1, vec![0, 1]), (2, vec![0, 1])];
    story(schedule, vec![play])
}

/// By the rules nothing but the empty log is decided; with half for more than half, [5] and [6 7].
pub fn mistaken() -> Story {
    let mut schedule = schedule("Half is not more than half", 4, 3, [0, 10]);
    tell(&mut schedule, 1, &[0, 1], proposal(3, 0, 2, log(&[5])));
    tell(&mut schedule, 1, &[2], proposal(3, 0, 2, log(&[6, 7])));
    tell(&mut schedule, 3, &[0, 1, 2], vote(3, 0, log(&[6, 7])));
    let (mut right, mut wrong) = (Play::new(&schedule, Rules::Paper), Play::new(&schedule, Rules::HalfIsEnough));
    for play in [&mut right, &mut wrong] {
        for (own, names) in [(0, &[5][..]), (1, &[5]), (2, &[6, 7])] {
            play.makes(1, vote(own, 0, log(names)));
        }
        play.snapshot(&[0, 1, 2], 2, &[0, 1, 2]);
        play.snapshot(&[0, 1, 2], 3, &[0, 1, 2, 3]);
        play.snapshot(&[0, 1, 2], 6, &[0, 1, 2]);
        play.snapshot(&[0, 1, 2], 7, &[0, 1, 2]);
        play.snapshot(&[0, 1, 2], 10, &[0, 1, 2]);
        play.run.counted = (0..3).map(|view| (view, vec![0, 1, 2])).collect();
    }
    go_on(&mut right, &[], (4, 4), &[], (3, 4));
    go_on(&mut wrong, &[6, 7], (2, 4), &[5], (2, 4));
    for own in 0..3 {
        wrong.act(own, 10).standing = log(&[5]);
        wrong.act(own, 10).parted = true;
    }
    let (one, other) = (Decision { bench: 0, beat: 6 }, Decision { bench: 0, beat: 10 });
    let logs = [log(&[5]), log(&[6, 7])];
    wrong.run.broken = vec![Broken::Conflict { one, other, logs }];
    wrong
        .run
        .broken
        .extend((0..3).map(|bench| Broken::Parted { bench, calls: 40 }));
    story(schedule, vec![right, wrong])
}

/// From beat 4 to 10, where everyone locks one log and decides another first.
fn go_on(play: &mut Play, locked: &[u64], support: (usize, usize), decided: &[u64], decisive: (usize, usize)) {
    let all = [0, 1, 2];
    play.read(&all, 4, Some(locked), support);
    play.read(&all, 5, Some(locked), support);
    play.read(&all, 6, Some(decided), decisive);
    (8..=10).for_each(|beat| play.read(&all, beat, Some(locked), (3, 3)));
    for own in all {
        play.makes(5, vote(own, 1, log(locked)));
        play.makes(9, vote(own, 2, log(locked)));
        play.decide(own, 6, decided);
        play.decide(own, 10, locked);
    }
}

/// One bench and one beat, and no title.
pub fn least() -> Story {
    let schedule = schedule("", 1, 1, [0, 0]);
    let play = Play::new(&schedule, Rules::Paper);
    story(schedule, vec![play])
}

/// Each with a name.
pub fn all() -> Vec<(&'static str, Story)> {
    vec![
        ("small", small()),
        ("mistaken", mistaken()),
        ("withheld", withheld()),
        ("odd", odd()),
        ("large", large()),
        ("passed_on", passed_on()),
        ("across", across()),
        ("breached", breached()),
        ("least", least()),
    ]
}
