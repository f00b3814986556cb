//! The premises of demand 3, each judged from the lists of one run.
use super::sheet::Sheet;
use super::words::{counted, numbers_or_nobody, span};
use crate::sketch::failures::{failures, vote_beyond, Failure};
use crate::sketch::schedule::Schedule;
use crate::sketch::story::Run;
use crate::volume::premises::Premise;

pub fn tell(sheet: &mut Sheet, schedule: &Schedule, run: &Run) {
    let failures = failures(schedule, run);
    sheet.say(0, "The premises of demand 3, judged from these lists of calls");
    let delivery = if run.own_missed { DELIVERY_BUT_OWN } else { DELIVERY };
    tell_premise(sheet, &failures, Premise::Delivery, delivery);
    tell_premise(sheet, &failures, Premise::Numbers, NUMBERS);
    tell_premise(sheet, &failures, Premise::Majority, MAJORITY);
    tell_counts(sheet, schedule, run);
}

const DELIVERY: [&str; 2] = [
    "Delivery holds: each LOG that a rule-keeper made or passed on was with the others by their next act, while its view was open.",
    "Delivery FAILS:",
];
const DELIVERY_BUT_OWN: [&str; 2] = [
    "Delivery holds: each LOG that a rule-keeper made or passed on was with the others by their next act, while its view was open, \
     but for a LOG under a bench's own number, which need not be handed to that bench.",
    DELIVERY[1],
];
const NUMBERS: [&str; 2] = [
    "Numbers holds: each LOG taken under a rule-keeper's number was made by that rule-keeper.",
    "Numbers FAILS:",
];
const MAJORITY: [&str; 2] = [
    "Majority holds: in each view the rule-keepers awake at both 4v-1 and 4v+1 (in view 0: at 1) outnumber the rule-breakers.",
    "Majority FAILS: in some view the rule-keepers awake at both 4v-1 and 4v+1 (in view 0: at 1) do not outnumber the \
     rule-breakers.",
];

/// Whether it holds, and where not; for the majority the counts of all views say where.
fn tell_premise(sheet: &mut Sheet, failures: &[Failure], premise: Premise, [holds, fails]: [&str; 2]) {
    let mut failures = failures.iter().filter(|failure| failure.premise == premise).peekable();
    sheet.say(2, if failures.peek().is_none() { holds } else { fails });
    for failure in failures.filter(|_| premise != Premise::Majority) {
        sheet.say(4, &failure.words);
    }
}

/// The count view by view; views of the same rule-keepers stand together, but for one whose vote the sketch does not reach.
fn tell_counts(sheet: &mut Sheet, schedule: &Schedule, run: &Run) {
    let breakers = usize::from(schedule.n) - schedule.keepers.len();
    let against = counted(breakers, "rule-breaker", "rule-breakers");
    let beyond = |view: u32| vote_beyond(schedule, view);
    let alike = |one: &(u32, Vec<u8>), other: &(u32, Vec<u8>)| one.1 == other.1 && beyond(one.0) == beyond(other.0);
    for alike in run.counted.chunk_by(alike) {
        let [(first, keepers), ..] = alike else { continue };
        let last = alike.last().map_or(*first, |(view, _)| *view);
        let (views, who) = (span("view", *first, last), numbers_or_nobody(keepers));
        let enough = if keepers.len() > breakers { "" } else { ": TOO FEW" };
        let said = match beyond(*first) {
            Some(vote) => format!("{views}: {who}, since the sketch ends before its vote at beat {vote}{enough}"),
            None => format!("{views}: {} ({who}) against {against}{enough}", keepers.len()),
        };
        sheet.say(4, &said);
    }
}

#[cfg(test)]
mod tests {
    use super::*;
    use crate::sketch::play::play;
    use crate::sketch::samples::{awake, fate, vote};
    use crate::volume::schedule::Presence;

    fn told(schedule: &Schedule) -> String {
        let mut sheet = Sheet::default();
        tell(&mut sheet, schedule, &play(schedule).unwrap().runs[0]);
        sheet.text
    }

    #[test]
    fn a_forged_log_that_its_number_was_not_handed_is_left_out_in_words() {
        let mut schedule = awake(4, 3, 3);
        let mut forged = vote(3, 2, &[0], 0, &[9]);
        forged.message.sender = 1;
        schedule.tells = vec![forged];
        let left_out = "but for a LOG under a bench's own number, which need not be handed to that bench.";
        let says = |schedule: &Schedule| {
            let text = told(schedule).split_whitespace().collect::<Vec<_>>().join(" ");
            assert!(text.contains("Delivery holds") && text.contains("Numbers FAILS"), "{text}");
            text.contains(left_out)
        };
        assert!(!says(&schedule), "handed to bench 1 at beat 3");
        schedule.fates = vec![fate(1, 1, None)];
        assert!(says(&schedule));
    }

    #[test]
    fn a_view_whose_vote_the_sketch_does_not_reach_says_so() {
        let mut schedule = awake(3, 2, 8);
        schedule.presence.iter_mut().for_each(|beats| beats[5] = Presence::Skips);
        let text = told(&schedule);
        let counts: Vec<&str> = text.lines().filter_map(|line| line.strip_prefix("    ")).collect();
        let expected = [
            "view 0: 2 (0 1) against 1 rule-breaker",
            "view 1: 0 (nobody) against 1 rule-breaker: TOO FEW",
            "view 2: nobody, since the sketch ends before its vote at beat 9: TOO FEW",
        ];
        assert!(counts.ends_with(&expected), "{text}");
    }
}
