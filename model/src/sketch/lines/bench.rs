//! One bench's part, beat by beat.
use super::act;
use super::sheet::Sheet;
use super::words::{log, message, numbers, refusal, span};
use crate::history::bench::{Rules, Word};
use crate::history::message::{Block, Kind, LAST_VIEW};
use crate::sketch::schedule::Schedule;
use crate::sketch::story::{Agreement, BeatRun, BenchRun, GradeRead, Take};
use crate::volume::schedule::Presence;
use std::collections::BTreeMap;

pub fn tell(sheet: &mut Sheet, schedule: &Schedule, rules: Rules, bench: &BenchRun) {
    sheet.say(0, &format!("Bench {}", bench.own));
    let mut place = 0;
    while place < bench.beats.len() {
        let asleep = bench.beats[place..]
            .iter()
            .take_while(|beat| beat.presence == Presence::Skips)
            .count();
        if asleep > 0 {
            let (first, last) = (bench.beats[place].beat, bench.beats[place + asleep - 1].beat);
            sheet.say(2, &format!("{}: asleep", span("Beat", first, last)));
            place += asleep;
            continue;
        }
        tell_beat(sheet, schedule, rules, bench, place);
        place += 1;
    }
}

fn tell_beat(sheet: &mut Sheet, schedule: &Schedule, rules: Rules, bench: &BenchRun, place: usize) {
    let beat = &bench.beats[place];
    sheet.say(2, &heading(beat));
    for take in &beat.takes {
        sheet.say(4, &taken(take));
    }
    let before = bench.beats[..place]
        .iter()
        .rev()
        .find(|beat| beat.presence != Presence::Skips);
    for agreement in &beat.agreements {
        let earlier = before.and_then(|before| before.agreements.iter().find(|earlier| earlier.view == agreement.view));
        let changed = earlier
            .is_none_or(|earlier| (&earlier.voters, &earlier.equivocators) != (&agreement.voters, &agreement.equivocators));
        if changed || is_read(beat, agreement.view) {
            sheet.say(4, &senders(agreement));
        }
    }
    for saying in act::told(schedule, rules, bench, place) {
        sheet.say(4, &saying);
    }
}

/// `Beat 5 (4v+1 of view 1)`.
fn heading(beat: &BeatRun) -> String {
    let place = match beat.beat % 4 {
        0 => "4v".to_string(),
        place => format!("4v+{place}"),
    };
    let view = match beat.beat / 4 {
        view if view > LAST_VIEW => "after the last view".to_string(),
        view => format!("{place} of view {view}"),
    };
    let only = match beat.presence {
        Presence::Begins => ": begins, and does not act",
        _ => "",
    };
    format!("Beat {} ({view}){only}", beat.beat)
}

fn taken(take: &Take) -> String {
    let Take { message: sent, .. } = take;
    let told = take.teller.map_or(String::new(), |teller| format!(", told by {teller}"));
    let (sender, view) = (sent.sender, sent.view);
    let answer = match (take.answer, sent.kind) {
        (Ok(Word::First), _) => "first".to_string(),
        (Ok(Word::Second), Kind::Log) => format!("second, so there are two stories of {sender} in view {view}"),
        (Ok(Word::Second), Kind::Proposal) => format!("second, so {sender}'s are set aside in view {view}"),
        (Ok(Word::Known), _) => "known".to_string(),
        (Err(number), _) => format!("refused by {number} ({})", refusal(number)),
    };
    let takes = if take.answer.is_ok() { "takes" } else { "is handed" };
    let passed = if take.is_passed_on() { "; passed on" } else { "" };
    format!("{takes} {}{told}: {answer}{passed}", message(sent))
}

fn is_read(beat: &BeatRun, view: u32) -> bool {
    let grade = beat.act.as_ref().map(|act| &act.grade);
    matches!(grade, Some(GradeRead::Read { view: read, .. }) if *read == view)
}

/// Who counts as a sender, for which log, and of whom there are two stories.
fn senders(agreement: &Agreement) -> String {
    let mut all: Vec<u8> = agreement.voters.keys().chain(&agreement.equivocators).copied().collect();
    all.sort_unstable();
    let mut said = match all.is_empty() {
        true => format!("GA {}: no sender heard", agreement.view),
        false => format!("GA {}: senders {}", agreement.view, numbers(&all)),
    };
    let mut by_log: BTreeMap<&[Block], Vec<u8>> = BTreeMap::new();
    for (sender, log) in &agreement.voters {
        by_log.entry(log).or_default().push(*sender);
    }
    for (blocks, these) in by_log {
        said += &format!("; {}: {}", log(blocks), numbers(&these));
    }
    if !agreement.equivocators.is_empty() {
        said += &format!("; of two logs (E): {}", numbers(&agreement.equivocators));
    }
    said
}
