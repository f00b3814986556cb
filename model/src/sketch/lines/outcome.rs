//! What a run came to: the decided logs, the verdict, and two runs side by side.
use super::sheet::Sheet;
use super::words::{log_or_empty, message, numbers, rules};
use crate::history::bench::Rules;
use crate::history::message::{Log, LAST_VIEW};
use crate::sketch::story::{Act, BenchRun, GradeRead, Run, Story};
use crate::volume::promise::Broken;
use std::collections::BTreeMap;

/// The decided logs of each bench, with their beats, and the verdict.
pub fn tell(sheet: &mut Sheet, run: &Run) {
    sheet.say(0, "Decided");
    for bench in &run.benches {
        sheet.say(2, &format!("bench {}: {}; {}", bench.own, decided(bench), standing(bench)));
    }
    sheet.gap();
    sheet.say(0, "Verdict");
    for saying in verdict(run) {
        sheet.say(2, &saying);
    }
}

/// Each decided log with its beats.
fn decided(bench: &BenchRun) -> String {
    let acts = bench.beats.iter().filter_map(|beat| Some((beat.beat, beat.act.as_ref()?)));
    let logs: Vec<(u32, &Log)> = acts.filter_map(|(beat, act)| Some((beat, act.decided.as_ref()?))).collect();
    let one = |alike: &[(u32, &Log)]| {
        let beats: Vec<String> = alike.iter().map(|(beat, _)| beat.to_string()).collect();
        let at = if beats.len() == 1 { "beat" } else { "beats" };
        format!("{} at {at} {}", log_or_empty(alike[0].1), beats.join(" "))
    };
    let said: Vec<String> = logs.chunk_by(|one, other| one.1 == other.1).map(one).collect();
    if said.is_empty() {
        return "nothing".to_string();
    }
    said.join(", ")
}

/// What stands at the end.
fn standing(bench: &BenchRun) -> String {
    let last = bench.beats.iter().rev().find_map(|beat| beat.act.as_ref());
    let (log, parted) = last.map_or((Log::new(), false), |act| (act.standing.clone(), act.parted));
    let mark = if parted { ", parted" } else { "" };
    format!("{} stands{mark}", log_or_empty(&log))
}

/// Whether the promise is kept, and what is to be said of the premises.
pub fn verdict(run: &Run) -> Vec<String> {
    let mut said = broken_promise(&run.broken);
    if said.is_empty() {
        said.push(KEPT.to_string());
    }
    let decides = |bench: &BenchRun| bench.beats.iter().flat_map(|beat| &beat.act).any(|act| act.decided.is_some());
    if !run.benches.iter().any(decides) {
        said.push("Nothing was decided.".to_string());
    }
    if let Some(view) = silent_from(run) {
        said.push(format!("Nobody votes from view {view} on."));
    }
    let premises = match (run.breaches.is_empty(), run.rules, run.broken.is_empty()) {
        (false, ..) => "A premise fails, so demand 3 does not promise that decided logs agree here.",
        (true, Rules::Paper, true) => "The premises hold, so demand 3 promises this.",
        (true, Rules::Paper, false) => "The premises hold, and demand 3 promises that this cannot be.",
        (true, _, true) => "The premises hold; here the mistake did no harm.",
        (true, _, false) => "The premises hold: the mistake alone did this.",
    };
    said.push(premises.to_string());
    said
}

/// The view from which on nobody votes, though there are rule-keepers awake to vote.
fn silent_from(run: &Run) -> Option<u32> {
    let beats = run.benches.iter().flat_map(|bench| &bench.beats);
    let voting = beats.filter(|beat| beat.beat % 4 == 1 && beat.beat / 4 <= LAST_VIEW);
    let mut votes: BTreeMap<u32, bool> = BTreeMap::new();
    for (beat, act) in voting.filter_map(|beat| Some((beat.beat, beat.act.as_ref()?))) {
        *votes.entry(beat / 4).or_default() |= act.made.is_some();
    }
    let silent = votes.iter().rev().take_while(|(_, voted)| !**voted);
    silent.last().map(|(view, _)| *view)
}

/// What the verdict says besides whether the promise is kept.
pub fn on_demand_three(run: &Run) -> Vec<String> {
    let promise = broken_promise(&run.broken).len().max(1);
    verdict(run).into_iter().skip(promise).collect()
}

const KEPT: &str = "No two decided logs conflict, and each bench's standing log is the longest it decided.";

fn broken_promise(broken: &[Broken]) -> Vec<String> {
    let (mut said, mut short, mut parted) = (vec![], vec![], vec![]);
    for broken in broken {
        match broken {
            Broken::Conflict { one, other, logs } => {
                let [first, second] = logs.clone().map(|log| log_or_empty(&log));
                let first = format!("bench {} decided {first} at beat {}", one.bench, one.beat);
                let second = format!("bench {} decided {second} at beat {}", other.bench, other.beat);
                said.push(format!("CONFLICT, two histories: {first}, {second}"));
            }
            Broken::Standing { bench, .. } => short.push(*bench),
            Broken::Parted { bench, .. } => parted.push(*bench),
        }
    }
    if !short.is_empty() {
        said.push(format!("What stands is not the longest log decided at: {}.", numbers(&short)));
    }
    if !parted.is_empty() {
        said.push(format!("The mark parted is set at: {}.", numbers(&parted)));
    }
    said
}

/// The outcomes of two runs, and where they first differ.
pub fn tell_both(sheet: &mut Sheet, story: &Story) {
    let [right, wrong] = &story.runs[..] else {
        return;
    };
    sheet.banner("Side by side");
    let labels = ["by the rules    ", "with the mistake"];
    sheet.say(0, &format!("The mistake: {}.", rules(wrong.rules)));
    for (one, other) in right.benches.iter().zip(&wrong.benches) {
        sheet.say(2, &format!("bench {}", one.own));
        for (label, bench) in labels.iter().zip([one, other]) {
            sheet.say(4, &format!("{label}  {}; {}", decided(bench), standing(bench)));
        }
    }
    sheet.say(2, "verdict");
    for (label, run) in labels.iter().zip([right, wrong]) {
        let first = verdict(run).into_iter().next().unwrap_or_default();
        sheet.say(4, &format!("{label}  {first}"));
    }
    let Some((beat, own, acts)) = first_difference(right, wrong) else {
        return sheet.say(2, "no act differs");
    };
    sheet.say(2, &format!("first difference: bench {own} at beat {beat}"));
    for (label, act) in labels.iter().zip(acts) {
        sheet.say(4, &format!("{label}  {act}"));
    }
}

/// The first act that reads, makes or decides something else: its beat, its bench, and what it does in each run.
fn first_difference(right: &Run, wrong: &Run) -> Option<(u32, u8, [String; 2])> {
    let beats = right.benches.first().map_or(0, |bench| bench.beats.len());
    let pairs = (0..beats).flat_map(|place| right.benches.iter().zip(&wrong.benches).map(move |pair| (place, pair)));
    let mut acts = pairs.filter_map(|(place, (one, other))| {
        let (one_beat, other_beat) = (&one.beats[place], &other.beats[place]);
        let acts = [one_beat.act.as_ref()?, other_beat.act.as_ref()?];
        Some((one_beat.beat, one.own, acts.map(done)))
    });
    acts.find(|(_, _, [by_rules, mistaken])| by_rules != mistaken)
}

/// What an act read, made and decided.
fn done(act: &Act) -> String {
    let read = match &act.grade {
        GradeRead::Read { grade, view, log, .. } => {
            let log = log.as_ref().map_or("none".to_string(), |log| log_or_empty(log));
            format!("reads grade {grade} of GA {view} as {log}, and ")
        }
        GradeRead::NoneNow | GradeRead::ViewZero => String::new(),
    };
    let done = match (&act.made, &act.decided) {
        (Some(made), _) => format!("makes {}", message(made)),
        (None, Some(log)) => format!("decides {}", log_or_empty(log)),
        (None, None) => "makes and decides nothing".to_string(),
    };
    read + &done
}
