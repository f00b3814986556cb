//! The grade that an act read, with its count in words.
use super::words::{self, log_or_empty, numbers, snapshot};
use crate::history::bench::Rules;
use crate::history::message::{is_prefix, Block, Log};
use crate::sketch::story::{Agreement, BenchRun, GradeRead};
use std::collections::{BTreeMap, BTreeSet};

/// What the act of this beat read, by these rules; nothing where it reads no agreement.
pub fn told(rules: Rules, bench: &BenchRun, place: usize) -> Option<String> {
    let GradeRead::Read {
        grade,
        view,
        snapped,
        log,
        supporters,
        senders,
    } = &bench.beats[place].act.as_ref()?.grade
    else {
        return None;
    };
    if !snapped {
        return Some(format!(
            "reads grade {grade} of GA {view}: {}",
            unsnapped(rules, *grade, *view)
        ));
    }
    let counted = counted(rules, bench, place, *grade, *view);
    let count = count(
        rules,
        *grade,
        *supporters,
        *senders,
        &supporting(&counted, log.as_deref().unwrap_or_default()),
    );
    let said = match log {
        None if *senders == 0 => "none; it has heard no sender".to_string(),
        None => format!("none; the empty log has {count}, and {} half is needed", needed(rules)),
        Some(log) => format!("{}, supported by {count}{}", log_or_empty(log), beaten(&counted, log)),
    };
    Some(format!("reads grade {grade} of GA {view}: {said}"))
}

fn unsnapped(rules: Rules, grade: u8, view: u32) -> String {
    let number = rules.snapshot_for(grade);
    let beat = 4 * view + 1 + u32::from(number);
    format!("none; it was not awake at beat {beat} for {}", snapshot(number))
}

fn needed(rules: Rules) -> &'static str {
    match rules {
        Rules::HalfIsEnough => "at least",
        _ => "more than",
    }
}

/// How many support a log, who, and among how many.
fn count(rules: Rules, grade: u8, supporters: usize, senders: usize, who: &BTreeSet<u8>) -> String {
    let whole = match rules {
        Rules::MajorityOfAll => format!("all {}", words::counted(senders, "bench", "benches")),
        Rules::EquivocatorsUnheard => format!("{} of one log", words::counted(senders, "sender", "senders")),
        _ => words::counted(senders, "sender", "senders"),
    };
    let within = match grade {
        _ if supporters == 0 => String::new(),
        0 => format!(" ({})", numbers(who)),
        _ => format!(" (in {}: {})", snapshot(rules.snapshot_for(grade)), numbers(who)),
    };
    format!("{supporters} of {whole}{within}")
}

/// The logs beyond the one read, each with its supporters, which were too few.
fn beaten(counted: &BTreeMap<u8, Log>, read: &[Block]) -> String {
    let logs: BTreeSet<&Log> = counted.values().filter(|log| !is_prefix(log, read)).collect();
    let few = |log: &&Log| format!("{} has only {}", words::log(log), supporting(counted, log).len());
    logs.iter().map(few).fold(String::new(), |said, few| said + "; " + &few)
}

/// Who supports this log.
fn supporting(counted: &BTreeMap<u8, Log>, log: &[Block]) -> BTreeSet<u8> {
    let supporters = counted.iter().filter(|(_, theirs)| is_prefix(log, theirs));
    supporters.map(|(sender, _)| *sender).collect()
}

/// Whoever may support in this grade of GA v at the act of this beat, each with its log.
fn counted(rules: Rules, bench: &BenchRun, place: usize, grade: u8, view: u32) -> BTreeMap<u8, Log> {
    let now = agreement_at(bench, place, view);
    let voters = |agreement: Option<&Agreement>| agreement.map_or_else(BTreeMap::new, |agreement| agreement.voters.clone());
    if grade == 0 {
        return voters(now);
    }
    let number = rules.snapshot_for(grade);
    let inside = now.and_then(|now| if number == 1 { now.one.clone() } else { now.two.clone() });
    let inside = inside.unwrap_or_default();
    let mut counted = match rules {
        // Judged by the logs of the time when the snapshot was taken.
        Rules::SnapshotJudges => {
            let then = 4 * view + 1 + u32::from(number);
            let then = bench.beats.iter().position(|beat| beat.beat == then);
            voters(then.and_then(|then| agreement_at(bench, then, view)))
        }
        _ => voters(now),
    };
    counted.retain(|sender, _| inside.contains(sender));
    counted
}

fn agreement_at(bench: &BenchRun, place: usize, view: u32) -> Option<&Agreement> {
    let agreements = &bench.beats[place].agreements;
    agreements.iter().find(|agreement| agreement.view == view)
}

/// Whether the supporters that are named are as many as the machine counted.
#[cfg(test)]
pub fn names_all(rules: Rules, bench: &BenchRun, place: usize) -> bool {
    let grade = bench.beats[place].act.as_ref().map(|act| &act.grade);
    let Some(GradeRead::Read {
        grade,
        view,
        log,
        supporters,
        ..
    }) = grade
    else {
        return true;
    };
    let counted = counted(rules, bench, place, *grade, *view);
    supporting(&counted, log.as_deref().unwrap_or_default()).len() == *supporters
}
