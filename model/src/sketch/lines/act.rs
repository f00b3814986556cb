//! What an act made, decided and stored, in words.
use super::grade;
use super::vote::Heard;
use super::words::{block, log, log_or_empty, message, numbers_or_nobody, snapshot};
use crate::history::bench::Rules;
use crate::history::message::{conflict, Block, Log, LAST_VIEW, MOST_BLOCKS};
use crate::sketch::schedule::Schedule;
use crate::sketch::story::{Act, BenchRun, GradeRead};

/// The sayings on the act of this beat, in order.
pub fn told(schedule: &Schedule, rules: Rules, bench: &BenchRun, place: usize) -> Vec<String> {
    let beat = &bench.beats[place];
    let Some(act) = &beat.act else {
        return vec![];
    };
    let mut said: Vec<String> = grade::told(rules, bench, place).into_iter().collect();
    let (view, after_all) = (beat.beat / 4, beat.beat / 4 > LAST_VIEW);
    match beat.beat % 4 {
        0 | 1 if after_all => said.push("after the last view: nothing is proposed or voted".to_string()),
        0 => said.push(proposing(schedule, bench.own, beat.beat, act)),
        1 => said.extend(voting(bench, place, view, act)),
        2 => said.push(deciding(view, standing_before(bench, place), act)),
        _ => {}
    }
    if let Some(taken) = &act.snapshot {
        let senders = numbers_or_nobody(&taken.senders);
        said.push(format!("takes {} of GA {}: {senders}", snapshot(taken.number), taken.view));
    }
    said
}

/// The log that the act goes by: the candidate, the lock or the one to decide.
fn used(act: &Act) -> Option<Log> {
    match &act.grade {
        GradeRead::Read { log, .. } => log.clone(),
        GradeRead::ViewZero => Some(vec![]),
        GradeRead::NoneNow => None,
    }
}

/// Where the log is the empty one because there is no agreement before.
fn in_view_zero(act: &Act) -> &'static str {
    match act.grade {
        GradeRead::ViewZero => "view 0: ",
        _ => "",
    }
}

fn proposing(schedule: &Schedule, own: u8, beat: u32, act: &Act) -> String {
    let offer = schedule.offers.iter().find(|offer| (offer.bench, offer.beat) == (own, beat));
    let offered = offer.map(|offer| block(&offer.block));
    let Some(candidate) = used(act) else {
        let block = offered.map_or(String::new(), |block| format!(", though block {block} is offered"));
        return format!("no candidate, so no PROPOSAL{block}");
    };
    let candidate_is = format!("{}the candidate is {}", in_view_zero(act), log_or_empty(&candidate));
    match (&act.made, offered) {
        (Some(made), _) => format!("{candidate_is}; makes {}", message(made)),
        (None, None) => format!("{candidate_is}; no block is offered"),
        (None, Some(_)) if candidate.len() >= MOST_BLOCKS => {
            format!("{candidate_is}: no log has more than {MOST_BLOCKS} blocks")
        }
        (None, Some(block)) => format!("{candidate_is}; block {block} is not proposed"),
    }
}

fn voting(bench: &BenchRun, place: usize, view: u32, act: &Act) -> Vec<String> {
    let Some(lock) = used(act) else {
        return vec!["no lock, so no vote".to_string()];
    };
    let mut said = vec![format!("{}the lock is {}", in_view_zero(act), log_or_empty(&lock))];
    let heard = Heard::by(bench, place, view);
    said.extend(heard.told(&lock));
    if let Some(made) = &act.made {
        let why = match heard.proposer(&made.log) {
            Some(proposer) => format!("proposed by {proposer}"),
            None => "the lock".to_string(),
        };
        said.push(format!("votes: makes {}, {why}", message(made)));
    }
    said
}

/// The decided log that stood before the act at this place.
fn standing_before(bench: &BenchRun, place: usize) -> &[Block] {
    let mut acts = bench.beats[..place].iter().filter_map(|beat| beat.act.as_ref());
    acts.next_back().map_or(&[], |act| &act.standing)
}

fn deciding(view: u32, before: &[Block], act: &Act) -> String {
    let marked = if act.parted { ", parted" } else { "" };
    let stands = log_or_empty(&act.standing);
    let Some(decided) = &act.decided else {
        let early = if view == 0 {
            "view 0: nothing to decide yet"
        } else {
            "decides nothing"
        };
        return format!("{early}; {stands} stands{marked}");
    };
    let decides = format!("DECIDES {}", log_or_empty(decided));
    if conflict(decided, before) {
        return format!("{decides}, which CONFLICTS with {}, which stands: parted", log(before));
    }
    match () {
        _ if decided.as_slice() == before => format!("{decides}; it already stands{marked}"),
        _ if act.standing == *decided => format!("{decides}; it stands{marked}"),
        _ => format!("{decides}; {stands} already stands{marked}"),
    }
}
