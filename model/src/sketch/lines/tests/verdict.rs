//! The verdict, and what is said after it.
use super::{assert_said, told};
use crate::history::bench::Rules;
use crate::history::message::Kind;
use crate::sketch::lines::{tell, verdict};
use crate::sketch::play::play;
use crate::sketch::samples::{awake, fate, log, two_stories, vote};
use crate::sketch::schedule::{Fate, Schedule};
use crate::volume::schedule::Presence;

#[test]
fn the_verdict_alone() {
    let story = play(&two_stories()).unwrap();
    let expected = "By the rules, in the proved code\n  No two decided logs conflict, and each bench's standing log is the longest it decided.\n  The premises hold, so demand 3 promises this.\n";
    assert_eq!(verdict(&story), expected);
}

#[test]
fn lines_that_met_no_message_are_told_after_the_verdict() {
    let mut schedule = awake(4, 3, 6);
    schedule.tells = vec![vote(3, 2, &[0], 0, &[7]), vote(3, 5, &[0, 1], 0, &[8])];
    let of = |sender, names: &[u64], to: &[u8], at| Fate {
        log: Some(log(names)),
        to: to.to_vec(),
        ..fate(sender, 0, at)
    };
    let lost = Fate {
        kind: Kind::Proposal,
        ..fate(0, 1, None)
    };
    schedule.fates = vec![
        of(0, &[9], &[1], None),
        fate(1, 0, None),
        lost,
        of(3, &[7], &[0], Some(4)),
        of(3, &[7], &[0, 2], Some(4)),
        of(3, &[8], &[0, 1], Some(6)),
    ];
    let idle = |line: &str| format!("  This line of the sketch met no message and did nothing: {line}\n");
    let expected: String = [
        "LOG v0 of 0 [9] never reaches 1",
        "PROPOSAL v0 of 0 never reaches 1",
        "LOG v0 of 3 [7] reaches 0 at 4",
    ]
    .map(idle)
    .concat();
    let story = play(&schedule).unwrap();
    assert!(tell(&story).ends_with(&expected), "{}", tell(&story));
    assert!(verdict(&story).ends_with(&expected), "{}", verdict(&story));
    schedule.mistake = Some(Rules::HalfIsEnough);
    let story = play(&schedule).unwrap();
    assert_eq!(verdict(&story).matches("met no message").count(), 3, "once, by the rules");
}

#[test]
fn nobody_votes_from_a_view_on() {
    let mut schedule = awake(3, 2, 12);
    for bench in 0..2 {
        schedule.presence[bench][7] = Presence::Begins;
    }
    assert_said(&schedule, &["Verdict No two decided logs conflict, and each bench's standing log is the longest it decided. Nobody votes from view 2 on. A premise fails"]);
    for (last, votes) in [(8, true), (9, false)] {
        let mut schedule = Schedule {
            last_beat: last,
            ..schedule.clone()
        };
        for row in &mut schedule.presence {
            row.truncate(last as usize + 1);
        }
        assert_eq!(told(&schedule).contains("Nobody votes"), !votes, "up to beat {last}");
    }
    for bench in 0..2 {
        schedule.presence[bench][9] = Presence::Begins;
    }
    assert!(!told(&schedule).contains("Nobody votes"), "nobody is awake to vote");
}
