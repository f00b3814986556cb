//! A story of all that is out of the ordinary.
use super::builder::{log, present, schedule, story, tell, Play};
use crate::history::bench::{Rules, Word};
use crate::history::message::{Block, Log};
use crate::sketch::schedule::Schedule;
use crate::sketch::story::{GradeRead, Story};
use crate::volume::messages::{proposal, vote};
use crate::volume::premises::Breach;
use crate::volume::schedule::Presence;

/// The last view, and its first beat.
const VIEW: u32 = 1_000_000;
const BEAT: u32 = 4 * VIEW;

/// Long names, long logs, entry counts, a forgery, refusals, three stories, a message to nobody, breaches, the last beats.
pub fn odd() -> Story {
    let title =
        "Odd <things> & \"quotes\", 'apostrophes', \u{1} and a title that goes on \u{8a71} until it needs a second line";
    let mut schedule = schedule(title, 5, 2, [BEAT - 3, BEAT + 6]);
    tells(&mut schedule);
    present(&mut schedule, 1, &[BEAT + 3], Presence::Begins);
    let mut play = Play::new(&schedule, Rules::Paper);
    for own in [0, 1] {
        for take in play.at(own, BEAT + 2).takes.iter_mut().filter(|take| take.message.view == 7) {
            take.answer = Err(21);
        }
    }
    gathers(&mut play);
    acts(&mut play);
    breaks(&mut play);
    story(schedule, vec![play])
}

/// The longest writing of a log.
fn long() -> Log {
    let (name, count) = (u64::MAX, u16::MAX);
    vec![Block { name, count }; 64]
}

fn tells(schedule: &mut Schedule) {
    let mut forged = vote(1, VIEW, log(&[1, 2, 3, 4, 5, 6, 7, 8, 9]));
    forged.log[8].count = 0;
    tell(schedule, BEAT + 2, &[0], vote(4, VIEW, long()));
    tell(schedule, BEAT + 2, &[0, 1], vote(4, VIEW, log(&[1])));
    tell(schedule, BEAT + 2, &[], vote(4, VIEW, log(&[2])));
    tell(schedule, BEAT + 2, &[0, 1], vote(2, 7, log(&[2])));
    tell(schedule, BEAT, &[0, 1], proposal(3, VIEW, u64::MAX, log(&[77])));
    tell(schedule, BEAT + 2, &[0], forged);
    schedule.tells[5].teller = 3;
}

fn gathers(play: &mut Play) {
    play.take(0, BEAT + 2, vote(4, VIEW, log(&[1])), Err(22));
    play.take(0, BEAT, proposal(3, VIEW, 1, log(&[78])), Ok(Word::Second));
    play.equivocators(0, BEAT + 2, VIEW, &[0, 4]);
    play.equivocators(0, BEAT + 3, VIEW, &[0, 4]);
}

fn acts(play: &mut Play) {
    play.read(&[0], BEAT + 1, None, (2, 4));
    play.read(&[1], BEAT + 1, Some(&[5]), (3, 4));
    play.makes(BEAT + 1, vote(1, VIEW, long()));
    play.act(0, BEAT + 6).grade = GradeRead::Read {
        grade: 2,
        view: VIEW,
        snapped: false,
        log: None,
        supporters: 0,
        senders: 0,
    };
    play.decide(1, BEAT + 6, &[5]);
    play.act(1, BEAT + 6).decided = Some(vec![]);
    play.snapshot(&[0], BEAT + 2, &[0, 1, 2, 3, 4]);
    play.snapshot(&[1], BEAT + 2, &[]);
}

/// Nobody is awake in the views before the schedule's.
fn breaks(play: &mut Play) {
    let majority = |view: u32, awake: &[u8]| Breach::Majority {
        view,
        awake: awake.to_vec(),
        breakers: 3,
    };
    let (taker, beat, number, view) = (0, BEAT + 2, 1, VIEW);
    play.run.breaches = vec![Breach::Numbers {
        taker,
        beat,
        number,
        view,
    }];
    play.run.breaches.extend((0..VIEW).map(|view| majority(view, &[])));
    play.run.breaches.push(majority(VIEW, &[0, 1]));
    play.run.counted = vec![(VIEW, vec![0, 1])];
}
