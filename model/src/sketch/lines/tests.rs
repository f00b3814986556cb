mod verdict;

use super::*;
use crate::history::message::Kind;
use crate::sketch::play::play;
use crate::sketch::samples::{
    awake, fate, half_is_enough, offer, one_log_withheld, proposal, snapshot_judges, two_stories, vote,
};
use crate::sketch::schedule::{Fate, Schedule};
use crate::volume::schedule::Presence;

fn samples() -> [Schedule; 4] {
    [two_stories(), half_is_enough(), snapshot_judges(), one_log_withheld()]
}

fn told(schedule: &Schedule) -> String {
    tell(&play(schedule).unwrap())
}

/// What is said of one bench of the first run at one beat.
fn beat(schedule: &Schedule, own: u8, beat: u32) -> Vec<String> {
    let text = told(schedule);
    let lines = text.lines().skip_while(|line| *line != format!("Bench {own}"));
    let lines = lines.skip_while(|line| !line.starts_with(&format!("  Beat {beat} ")));
    let mut said: Vec<String> = vec![];
    for line in lines.skip(1).take_while(|line| line.starts_with("    ")) {
        match said.last_mut() {
            Some(saying) if line.starts_with("      ") => *saying += &format!(" {}", line.trim()),
            _ => said.push(line.trim().to_string()),
        }
    }
    said
}

fn assert_said(schedule: &Schedule, sayings: &[&str]) {
    let text = told(schedule);
    // A saying may run over a line's end.
    let flat = text.split_whitespace().collect::<Vec<_>>().join(" ");
    for saying in sayings {
        assert!(flat.contains(saying), "not said: {saying}\n{text}");
    }
}

#[test]
fn a_vote_after_a_second_story() {
    let lines = beat(&two_stories(), 0, 3);
    assert_eq!(
        lines,
        [
            "takes LOG v0 of 3 [8]: second, so there are two stories of 3 in view 0; passed on",
            "GA 0: senders 0 1 2 3; [5]: 0 1 2; of two logs (E): 3",
            "takes snapshot two of GA 0: 0 1 2",
        ]
    );
    let lines = beat(&two_stories(), 1, 5);
    assert_eq!(
        lines,
        [
            "takes PROPOSAL v1 of 0 [5 6], priority 1: first",
            "GA 0: senders 0 1 2 3; [5]: 0 1 2; of two logs (E): 3",
            "reads grade 1 of GA 0: [5], supported by 3 of 4 senders (in snapshot two: 0 1 2)",
            "the lock is [5]",
            "PROPOSALs: [5 6] of 0, priority 1",
            "votes: makes LOG v1 of 1 [5 6], proposed by 0",
        ]
    );
}

#[test]
fn a_sleeper_is_told_in_runs_and_has_no_lock() {
    let mut schedule = two_stories();
    schedule.presence[2][0] = Presence::Awake;
    schedule.presence[2][4] = Presence::Skips;
    schedule.presence[2][5] = Presence::Awake;
    assert_said(&schedule, &["Beats 3 to 4: asleep"]);
    let lines = beat(&schedule, 2, 5);
    assert_eq!(
        lines[lines.len() - 2..],
        [
            "reads grade 1 of GA 0: none; it was not awake at beat 3 for snapshot two",
            "no lock, so no vote"
        ]
    );
    assert_said(
        &two_stories(),
        &["Beat 4 (4v of view 1): begins, and does not act takes LOG v0 of 3 [7], told by 3: first; passed on"],
    );
}

#[test]
fn what_is_decided_and_what_stands() {
    assert_said(
        &two_stories(),
        &[
            "DECIDES [5]; it stands",
            "bench 2: [5] at beat 6, [5 6] at beat 10; [5 6] stands",
        ],
    );
    assert_said(
        &one_log_withheld(),
        &[
            "DECIDES the empty log; it already stands",
            "DECIDES the empty log; [6] already stands",
            "DECIDES [8], which CONFLICTS with [6], which stands: parted",
            "bench 1: [6] at beat 6, the empty log at beat 10, [8] at beat 14; [6] stands, parted",
        ],
    );
}

#[test]
fn no_grade_is_told_with_its_count() {
    let mut schedule = awake(4, 2, 4);
    schedule.offers = vec![offer(0, 4, 7)];
    for teller in [2, 3] {
        schedule
            .tells
            .extend([vote(teller, 2, &[0], 0, &[5]), vote(teller, 2, &[0], 0, &[6])]);
    }
    let lines = beat(&schedule, 0, 4);
    assert_eq!(
        lines[1],
        "reads grade 0 of GA 0: none; the empty log has 2 of 4 senders (0 1), and more than half is needed"
    );
    assert_eq!(lines[2], "no candidate, so no PROPOSAL, though block 7 is offered");
    schedule.tells = vec![proposal(2, 1, &[0], 0, &[5])];
    let lines = beat(&schedule, 0, 4);
    assert_eq!(
        lines[1],
        "reads grade 0 of GA 0: the empty log, supported by 2 of 2 senders (0 1); [5] has only 1"
    );
    assert_eq!(
        lines[2],
        "the candidate is the empty log; makes PROPOSAL v1 of 0 [7], priority 1"
    );
}

#[test]
fn proposals_that_cannot_be_voted_for() {
    let mut schedule = two_stories();
    schedule.tells = vec![
        proposal(3, 5, &[0, 1], 1, &[8]),
        proposal(3, 5, &[1], 1, &[9]),
        proposal(3, 6, &[1], 1, &[9]),
    ];
    assert_said(
        &schedule,
        &[
            "PROPOSALs: [5 6] of 0, priority 1; [8] of 3, priority 2 (without the lock)",
            "second, so 3's are set aside in view 1",
            "PROPOSALs: [5 6] of 0, priority 1; of 3 two, set aside",
            "is handed PROPOSAL v1 of 3 [9], priority 2, told by 3: refused by 21 (its view is not open to it at this beat)",
        ],
    );
}

#[test]
fn premises_that_hold_and_fail() {
    let holding = [
        "Delivery holds",
        "Numbers holds",
        "Majority holds",
        "view 1: 2 (0 1) against 1 rule-breaker",
        "The premises hold",
    ];
    assert_said(&two_stories(), &holding);
    let mut schedule = awake(3, 2, 6);
    schedule.presence[1][5] = Presence::Skips;
    schedule.fates = vec![fate(1, 0, None)];
    let mut forged = vote(2, 6, &[0], 1, &[9]);
    forged.message.sender = 1;
    schedule.tells = vec![forged];
    assert_said(
        &schedule,
        &[
            "Delivery FAILS: LOG v0 of 1 [], made by 1 at beat 1, was not with 0 by its act at beat 2",
            "Numbers FAILS: bench 0 took LOG v1 of 1 [9] at beat 6, which bench 1 never made",
            "view 0: 2 (0 1) against 1 rule-breaker view 1: 1 (0) against 1 rule-breaker: TOO FEW",
            "A premise fails, so demand 3 does not promise that decided logs agree here.",
        ],
    );
}

#[test]
fn each_log_that_was_not_delivered_is_told_once() {
    let mut schedule = awake(4, 3, 3);
    schedule.tells = vec![vote(3, 2, &[0], 0, &[5]), vote(3, 2, &[0], 0, &[6])];
    schedule.fates = vec![fate(3, 1, None)];
    let text = told(&schedule);
    for log in ["[5]", "[6]"] {
        let said = format!("LOG v0 of 3 {log}, passed on by 0 at beat 2, was not with 1 by its act at beat 3");
        assert_eq!(text.matches(&said).count(), 1, "{text}");
    }
}

#[test]
fn two_runs_side_by_side() {
    assert_said(
        &half_is_enough(),
        &[
            "With the mistake \"at least half for more than half\", in the model",
            "CONFLICT, two histories: bench 0 decided [5] at beat 6, bench 0 decided [6 7] at beat 10",
            "The premises hold: the mistake alone did this.",
            "by the rules the empty log at beats 6 10; the empty log stands with the mistake [5] at beat 6, [6 7] at beat 10; [5] stands, parted",
            "first difference: bench 0 at beat 4 by the rules reads grade 0 of GA 0 as the empty log, and makes and decides nothing",
        ],
    );
}

#[test]
fn a_mistake_counts_by_its_own_whole() {
    let mut schedule = half_is_enough();
    let said_under = |schedule: &mut Schedule, rules, saying: &str| {
        schedule.mistake = Some(rules);
        assert_said(schedule, &[saying]);
    };
    said_under(
        &mut schedule,
        Rules::MajorityOfAll,
        "supported by 4 of all 4 benches (0 1 2 3)",
    );
    said_under(
        &mut schedule,
        Rules::EquivocatorsUnheard,
        "supported by 4 of 4 senders of one log (0 1 2 3)",
    );
    said_under(
        &mut schedule,
        Rules::SnapshotsSwapped,
        "reads grade 2 of GA 0: the empty log, supported by 4 of 4 senders (in snapshot two: 0 1 2 3)",
    );
}

#[test]
fn the_supporters_named_are_as_many_as_were_counted() {
    for mut schedule in samples() {
        for mistake in Rules::MISTAKES {
            schedule.mistake = Some(mistake);
            for run in play(&schedule).unwrap().runs {
                for bench in &run.benches {
                    assert!(
                        (0..bench.beats.len()).all(|place| grade::names_all(run.rules, bench, place)),
                        "{mistake:?}"
                    );
                }
            }
        }
    }
}

#[test]
fn no_line_is_too_long() {
    let mut schedule = two_stories();
    let names: Vec<u64> = (1..=64).map(|place| u64::MAX - place).collect();
    schedule.tells.push(vote(3, 2, &[0, 1, 2], 0, &names));
    schedule.fates.push(Fate {
        kind: Kind::Log,
        ..fate(3, 1, None)
    });
    for schedule in samples().into_iter().chain([schedule]) {
        let text = told(&schedule);
        assert!(
            text.lines()
                .all(|line| line.chars().count() <= 100 && line == line.trim_end()),
            "{text}"
        );
    }
}
