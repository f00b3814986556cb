//! Stories in which messages are lost or two decided logs conflict by the rules.
use super::builder::{log, schedule, story, tell, Play};
use crate::history::bench::{Rules, Word};
use crate::history::message::Kind;
use crate::sketch::schedule::Fate;
use crate::sketch::story::Story;
use crate::volume::messages::{proposal, vote};
use crate::volume::premises::Breach;
use crate::volume::promise::{Broken, Decision};

/// Two rule-keepers; a LOG is lost and another late, so that the premise on delivery fails and both decide their own.
pub fn withheld() -> Story {
    let mut schedule = schedule("A LOG is lost, and two benches decide two logs", 2, 2, [0, 7]);
    let fate = |sender: u8, to: u8, at: Option<u32>| Fate {
        kind: Kind::Log,
        view: 0,
        sender,
        log: None,
        to: vec![to],
        at,
    };
    schedule.fates = vec![fate(0, 1, None), fate(1, 0, Some(5))];
    let mut play = Play::new(&schedule, Rules::Paper);
    hears_itself_alone(&mut play, 0, 5);
    hears_itself_alone(&mut play, 1, 6);
    play.take(0, 5, vote(1, 0, log(&[6])), Ok(Word::First));
    let missing = |from: u8, to: u8| Breach::Delivery {
        from,
        beat: 1,
        to,
        due: 2,
        view: 0,
    };
    play.run.breaches = vec![missing(0, 1), missing(1, 0)];
    play.run.counted = vec![(0, vec![0, 1]), (1, vec![0, 1])];
    let (one, other) = (Decision { bench: 0, beat: 6 }, Decision { bench: 1, beat: 6 });
    let logs = [log(&[5]), log(&[6])];
    play.run.broken = vec![Broken::Conflict { one, other, logs }];
    story(schedule, vec![play])
}

/// In view 0 it hears itself alone, and decides its own proposal.
fn hears_itself_alone(play: &mut Play, own: u8, name: u64) {
    play.makes(0, proposal(own, 0, 1, log(&[name])));
    play.makes(1, vote(own, 0, log(&[name])));
    play.snapshot(&[own], 2, &[own]);
    play.snapshot(&[own], 3, &[own]);
    for beat in 4..=6 {
        play.read(&[own], beat, Some(&[name]), (1, 1));
    }
    play.makes(5, vote(own, 1, log(&[name, 9])));
    play.decide(own, 6, &[name]);
    play.snapshot(&[own], 6, &[0, 1]);
    play.snapshot(&[own], 7, &[0, 1]);
}

/// A rule-breaker tells two of four its LOG. Passed on, it never reaches the third and the fourth at a later beat; the second,
/// named too, has it already.
pub fn passed_on() -> Story {
    let mut schedule = schedule("What a rule-breaker told is passed on and lost", 32, 4, [0, 3]);
    tell(&mut schedule, 2, &[0, 1], vote(31, 0, log(&[7])));
    let fate = |to: &[u8], at: Option<u32>| Fate {
        kind: Kind::Log,
        view: 0,
        sender: 31,
        log: Some(log(&[7])),
        to: to.to_vec(),
        at,
    };
    schedule.fates = vec![fate(&[1, 2], None), fate(&[3], Some(3))];
    let play = Play::new(&schedule, Rules::Paper);
    story(schedule, vec![play])
}

/// Bench 0 passes on LOGs of many numbers in one beat. Each of the two others has every second one of them, and never gets the
/// rest.
pub fn breached() -> Story {
    let mut schedule = schedule("Many LOGs are lost", 16, 3, [0, 4]);
    for sender in 3..15 {
        tell(&mut schedule, 2, &[0, 1 + sender % 2], vote(sender, 0, log(&[7])));
    }
    let mut play = Play::new(&schedule, Rules::Paper);
    for to in [1, 2] {
        let (from, beat, view, due) = (0, 2, 0, 3);
        play.run.breaches.push(Breach::Delivery {
            from,
            beat,
            to,
            due,
            view,
        });
    }
    play.run.counted = vec![(0, vec![0, 1, 2])];
    story(schedule, vec![play])
}

/// Two benches decide in two views, with much told in both columns and rows between them.
pub fn across() -> Story {
    let mut schedule = schedule("A conflict across benches and views", 5, 3, [4, 11]);
    for (beat, view) in [(6, 0), (10, 1)] {
        tell(&mut schedule, beat, &[0, 1, 2], vote(3, view, log(&[7])));
        tell(&mut schedule, beat, &[1], vote(3, view, log(&[8])));
        tell(&mut schedule, beat, &[2], vote(4, view, log(&[9])));
    }
    let mut play = Play::new(&schedule, Rules::Paper);
    play.decide(0, 10, &[5]);
    play.decide(2, 6, &[6]);
    for own in 0..3 {
        play.snapshot(&[own], 6, &[0, 1, 2]);
        play.snapshot(&[own], 10, &[0, 1, 2]);
        play.makes(9, vote(own, 2, log(&[5])));
    }
    let (one, other) = (Decision { bench: 0, beat: 10 }, Decision { bench: 2, beat: 6 });
    let logs = [log(&[5]), log(&[6])];
    play.run.broken = vec![Broken::Conflict { one, other, logs }];
    story(schedule, vec![play])
}
