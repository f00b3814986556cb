use super::*;
use crate::sketch::play::play;
use crate::sketch::samples::{awake, fate, vote};
use crate::volume::schedule::Presence;

/// What is said of the failures by the rules, and where.
fn found(schedule: &Schedule) -> Vec<(String, Place)> {
    let story = play(schedule).unwrap();
    let failures = failures(schedule, &story.runs[0]);
    failures.into_iter().map(|failure| (failure.words, failure.place)).collect()
}

fn at(benches: &[u8], beat: u32) -> Place {
    let benches = benches.iter().copied().collect();
    Place::Benches { benches, beat }
}

#[test]
fn a_log_lost_to_some_is_one_failure_for_each_beat_it_was_sent_in() {
    let mut schedule = awake(8, 7, 3);
    schedule.tells = vec![vote(7, 2, &[0, 2], 0, &[5])];
    let mut lost = fate(7, 1, None);
    lost.to = vec![1, 3, 4, 5, 6];
    schedule.fates = vec![lost];
    let words = "LOG v0 of 7 [5], passed on by 0 2 at beat 2, was not with 1 3-6 by their acts at beat 3";
    assert_eq!(found(&schedule), [(words.to_string(), at(&[1, 3, 4, 5, 6], 3))]);
    schedule = awake(2, 2, 3);
    schedule.fates = vec![fate(0, 1, None)];
    let words = "LOG v0 of 0 [], made by 0 at beat 1, was not with 1 by its act at beat 2";
    assert_eq!(found(&schedule), [(words.to_string(), at(&[1], 2))]);
}

#[test]
fn two_logs_of_one_beat_and_two_beats_due_are_told_apart() {
    let mut schedule = awake(4, 3, 4);
    schedule.presence[2][3] = Presence::Skips;
    schedule.tells = vec![vote(3, 2, &[0], 0, &[5]), vote(3, 2, &[0], 0, &[6])];
    let mut lost = fate(3, 1, None);
    lost.to = vec![1, 2];
    schedule.fates = vec![lost];
    let words = |log: &str, to: u8, due: u32| {
        format!("LOG v0 of 3 {log}, passed on by 0 at beat 2, was not with {to} by its act at beat {due}")
    };
    let expected = [(1, 3, "[5]"), (1, 3, "[6]"), (2, 4, "[5]"), (2, 4, "[6]")];
    let expected = expected.map(|(to, due, log)| (words(log, to, due), at(&[to], due)));
    let mut delivery = found(&schedule);
    assert_eq!(
        delivery.pop().map(|(_, place)| place),
        Some(Place::Views { first: 1, last: 1 })
    );
    assert_eq!(delivery, expected);
}

#[test]
fn a_log_made_by_one_and_passed_on_by_another_in_one_beat_names_both() {
    let mut schedule = awake(4, 3, 2);
    let mut forged = vote(3, 1, &[1], 0, &[]);
    forged.message.sender = 0;
    schedule.tells = vec![forged];
    schedule.fates = vec![fate(0, 2, None)];
    let words = "LOG v0 of 0 [], made by 0 and passed on by 1 at beat 1, was not with 2 by its act at beat 2";
    assert_eq!(found(&schedule), [(words.to_string(), at(&[2], 2))]);
}

#[test]
fn a_forged_log_is_named_with_all_who_took_it_in_one_beat() {
    let mut schedule = awake(4, 3, 3);
    let mut forged = vote(3, 2, &[0, 2], 0, &[9]);
    forged.message.sender = 1;
    schedule.tells = vec![forged];
    let words = [
        "benches 0 2 took LOG v0 of 1 [9] at beat 2, which bench 1 never made",
        "bench 1 took LOG v0 of 1 [9] at beat 3, which bench 1 never made",
    ];
    let expected = [(words[0].to_string(), at(&[0, 2], 2)), (words[1].to_string(), at(&[1], 3))];
    assert_eq!(found(&schedule), expected);
}

/// Bench 0 is told a LOG forged under bench 1's number, and another; neither reaches bench 1.
#[test]
fn a_forged_log_need_not_reach_whom_it_seems_to_be_of() {
    let mut schedule = awake(4, 3, 3);
    let mut forged = vote(3, 2, &[0], 0, &[9]);
    forged.message.sender = 1;
    schedule.tells = vec![forged];
    schedule.fates = vec![fate(1, 1, None)];
    let took = |who: u8, beat: u32| {
        let words = format!("bench {who} took LOG v0 of 1 [9] at beat {beat}, which bench 1 never made");
        (words, at(&[who], beat))
    };
    assert_eq!(found(&schedule), [took(0, 2), took(2, 3)]);
    schedule.tells.push(vote(3, 2, &[0], 0, &[8]));
    schedule.fates.push(fate(3, 1, None));
    let lost = "LOG v0 of 3 [8], passed on by 0 at beat 2, was not with 1 by its act at beat 3".to_string();
    assert_eq!(found(&schedule), [(lost, at(&[1], 3)), took(0, 2), took(2, 3)]);
}

#[test]
fn too_few_are_a_set_in_braces_and_views_alike_stand_together() {
    let mut schedule = awake(4, 2, 16);
    schedule.presence[1][5] = Presence::Skips;
    let expected = [
        "in view 0 only {0,1} count (awake at beat 1), against 2 rule-breakers",
        "in view 1 only {0} counts (awake at beats 3 and 5), against 2 rule-breakers",
        "in views 2 to 3 only {0,1} count (awake at 4v-1 and 4v+1), against 2 rule-breakers",
        "in view 4 nobody counts: the sketch ends before its vote at beat 17",
    ];
    let views = [(0, 0), (1, 1), (2, 3), (4, 4)].map(|(first, last)| Place::Views { first, last });
    let expected: Vec<(String, Place)> = expected.map(str::to_string).into_iter().zip(views).collect();
    assert_eq!(found(&schedule), expected);
}

#[test]
fn views_without_anybody_are_not_joined_with_one_that_the_sketch_does_not_reach() {
    let mut schedule = awake(1, 1, 8);
    schedule.presence[0] = vec![Presence::Begins; 9];
    let words: Vec<String> = found(&schedule).into_iter().map(|(words, _)| words).collect();
    assert_eq!(
        words,
        [
            "in views 0 to 1 nobody counts (awake at 4v-1 and 4v+1, in view 0 at 1), against 0 rule-breakers",
            "in view 2 nobody counts: the sketch ends before its vote at beat 9"
        ]
    );
}
