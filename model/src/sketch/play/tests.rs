use super::*;
use crate::history::bench::Word;
use crate::history::message::{Kind, Log};
use crate::history::roll;
use crate::sketch::samples::{awake, fate, half_is_enough, log, offer, one_log_withheld, snapshot_judges, two_stories, vote};
use crate::sketch::schedule::Fate;
use crate::volume::premises::Premise;
use crate::volume::promise::Broken;

fn played(schedule: &Schedule) -> Run {
    play(schedule).unwrap().runs.swap_remove(0)
}

fn decided(run: &Run) -> Vec<Vec<(u32, Log)>> {
    let decisions = |bench: &BenchRun| {
        let acts = bench.beats.iter().filter_map(|beat| Some((beat.beat, beat.act.as_ref()?)));
        acts.filter_map(|(beat, act)| Some((beat, act.decided.clone()?))).collect()
    };
    run.benches.iter().map(decisions).collect()
}

/// The beats at which a bench took a LOG of this sender, with the answers.
fn takes(run: &Run, bench: usize, sender: u8) -> Vec<(u32, Result<Word, u8>)> {
    let beats = run.benches[bench].beats.iter();
    let takes = beats.flat_map(|beat| beat.takes.iter().map(move |take| (beat.beat, take)));
    let theirs = takes.filter(|(_, take)| take.message.kind == Kind::Log && take.message.sender == sender);
    theirs.map(|(beat, take)| (beat, take.answer)).collect()
}

#[test]
fn a_sleeper_and_two_stories() {
    let run = played(&two_stories());
    assert!(run.breaches.is_empty() && run.broken.is_empty());
    let both = vec![(6, log(&[5])), (10, log(&[5, 6]))];
    assert_eq!(decided(&run), [both.clone(), both, vec![(6, log(&[5])), (10, log(&[5, 6]))]]);
    assert_eq!(run.counted, [(0, vec![0, 1, 2]), (1, vec![0, 1]), (2, vec![0, 1, 2])]);
    assert_eq!(takes(&run, 0, 3), [(2, Ok(Word::First)), (3, Ok(Word::Second))]);
    let last = &run.benches[2].beats[6];
    assert_eq!(last.agreements[0].view, 0);
    assert!(last.agreements[0].two.is_none() && last.agreements[0].equivocators.contains(&3));
}

#[test]
fn the_text_is_that_of_the_roll() {
    for schedule in [two_stories(), half_is_enough()] {
        for run in play(&schedule).unwrap().runs {
            for bench in run.benches {
                assert_eq!(bench.text.as_bytes(), roll::text_under(run.rules, &bench.roll));
            }
        }
    }
}

#[test]
fn a_mistake_parts_what_the_rules_keep_together() {
    for schedule in [half_is_enough(), snapshot_judges()] {
        let [right, wrong] = <[Run; 2]>::try_from(play(&schedule).unwrap().runs).ok().unwrap();
        assert_eq!((right.rules, Some(wrong.rules)), (Rules::Paper, schedule.mistake));
        assert!(right.breaches.is_empty() && wrong.breaches.is_empty());
        assert!(right.broken.is_empty() && decided(&right).iter().any(|logs| !logs.is_empty()));
        assert!(matches!(wrong.broken[0], Broken::Conflict { .. }));
    }
}

#[test]
fn a_lost_log_breaks_delivery() {
    let run = played(&one_log_withheld());
    assert!(!run.breaches.is_empty() && run.breaches.iter().all(|breach| breach.premise() == Premise::Delivery));
    assert!(matches!(run.broken[0], Broken::Conflict { .. }));
}

#[test]
fn logs_come_at_the_first_awake_beat_or_when_the_sketch_says() {
    let mut schedule = awake(2, 2, 6);
    schedule.presence[1][2] = Presence::Skips;
    schedule.presence[1][3] = Presence::Begins;
    assert_eq!(takes(&played(&schedule), 1, 0), [(4, Ok(Word::First)), (6, Ok(Word::First))]);
    schedule.fates = vec![fate(0, 1, Some(3))];
    assert_eq!(
        takes(&played(&schedule), 1, 0)[0].0,
        3,
        "begun is enough to be handed a message"
    );
    schedule.fates.push(Fate {
        log: Some(log(&[9])),
        ..fate(0, 1, None)
    });
    assert_eq!(takes(&played(&schedule), 1, 0)[0].0, 3, "of another log");
    schedule.fates.insert(
        0,
        Fate {
            log: Some(vec![]),
            ..fate(0, 1, None)
        },
    );
    assert_eq!(takes(&played(&schedule), 1, 0)[0].0, 6, "one that names the log goes before");
    schedule.fates = vec![fate(0, 1, Some(2))];
    assert_eq!(
        takes(&played(&schedule), 1, 0)[0].0,
        6,
        "nothing comes to one that sleeps then"
    );
}

#[test]
fn proposals_come_at_the_beat_after() {
    let mut schedule = awake(3, 3, 1);
    schedule.offers = vec![offer(2, 0, 5), offer(0, 0, 6)];
    schedule.presence[1][1] = Presence::Begins;
    schedule.fates = vec![Fate {
        kind: Kind::Proposal,
        ..fate(0, 2, None)
    }];
    let run = played(&schedule);
    let heard = |bench: usize| run.benches[bench].beats[1].takes.iter().map(|take| take.message.sender);
    assert_eq!(heard(0).collect::<Vec<_>>(), [2]);
    assert_eq!(heard(1).collect::<Vec<_>>(), [0, 2]);
    assert_eq!(heard(2).count(), 0);
}

#[test]
fn rule_breakers_come_after_rule_keepers_and_may_be_refused() {
    let mut schedule = awake(3, 2, 2);
    schedule.tells = vec![vote(2, 2, &[0], 0, &[5]), vote(2, 2, &[0], 1, &[5])];
    let run = played(&schedule);
    let takes = &run.benches[0].beats[2].takes;
    assert_eq!(
        takes.iter().map(|take| take.teller).collect::<Vec<_>>(),
        [None, Some(2), Some(2)]
    );
    assert_eq!(
        takes.iter().map(|take| take.answer).collect::<Vec<_>>()[1..],
        [Ok(Word::First), Err(21)]
    );
}

#[test]
fn the_grade_read_has_its_snapshot_and_count() {
    let run = played(&two_stories());
    let grade = |bench: usize, beat: usize| run.benches[bench].beats[beat].act.as_ref().unwrap().grade.clone();
    let read = |grade, snapped, supporters| GradeRead::Read {
        grade,
        view: 0,
        snapped,
        log: Some(log(&[5])),
        supporters,
        senders: 4,
    };
    assert_eq!(grade(0, 1), GradeRead::ViewZero);
    assert_eq!(grade(0, 3), GradeRead::NoneNow);
    assert_eq!((grade(0, 4), grade(0, 5)), (read(0, true, 3), read(1, true, 3)));
    assert_eq!(grade(2, 6), read(2, true, 3));
}

#[test]
fn a_list_too_long_for_a_roll_is_named() {
    let mut schedule = awake(2, 1, 1);
    schedule.tells = vec![vote(1, 1, &[0], 0, &[5]); 1_020];
    assert!(play(&schedule).is_ok());
    schedule.tells.push(vote(1, 1, &[0], 0, &[5]));
    assert_eq!(play(&schedule).err(), Some(Overlong { bench: 0, beat: 1 }));
    schedule.tells = vec![vote(1, 1, &[0], 0, &(1..=64).collect::<Vec<_>>()); 100];
    assert_eq!(play(&schedule).err(), Some(Overlong { bench: 0, beat: 1 }));
}
