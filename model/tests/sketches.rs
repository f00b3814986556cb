//! The stored sketches: each read, played, told and drawn again, with what is stored beside it; and the proved code against the
//! model call by call, over these and over random volumes.
use model::history::bench::{Call, Rules, LAST_BEAT};
use model::history::message::Block;
use model::history::roll::read_roll;
use model::proved::{roll_made, roll_page};
use model::rolls::Generator;
use model::sketch::machine::model::Model;
use model::sketch::machine::proved::Proved;
use model::sketch::machine::Machine;
use model::sketch::story::Story;
use model::sketch::{lines, notation, picture, play};
use model::volume;
use model::volume::messages::vote;
use model::volume::promise::Broken;
use std::fs;
use std::path::{Path, PathBuf};

/// The fewest sketches that are stored: a sound one, the six mistakes, the three premises dropped, and two stories.
const LEAST: usize = 11;
/// How many random volumes are replayed; each call runs the whole roll so far in the proved code.
const VOLUMES: u64 = 300;
/// How many random rolls.
const ROLLS: u64 = 200;
/// How many calls of one bench at the most.
const CALLS: usize = 200;

/// The stored sketches, by name.
fn stored() -> Vec<PathBuf> {
    let folder = Path::new(env!("CARGO_MANIFEST_DIR")).join("../docs/sketches");
    let entries = fs::read_dir(&folder).unwrap_or_else(|error| panic!("{}: {error}", folder.display()));
    let paths = entries.map(|entry| entry.unwrap().path());
    let mut sketches: Vec<PathBuf> = paths
        .filter(|path| path.extension().is_some_and(|end| end == "sketch"))
        .collect();
    sketches.sort();
    sketches
}

fn name(file: &Path) -> String {
    format!("docs/sketches/{}", file.file_name().unwrap().to_string_lossy())
}

fn story(file: &Path) -> Story {
    let text = fs::read_to_string(file).unwrap();
    let schedule = notation::read(&text).unwrap_or_else(|fault| panic!("{}: {fault}", name(file)));
    play::play(&schedule).unwrap_or_else(|overlong| panic!("{}: {overlong}", name(file)))
}

fn assert_stored(file: &Path, end: &str, expected: &str) {
    let stored = fs::read_to_string(file.with_extension(end)).unwrap_or_default();
    // Not by assert_eq: a picture in a test's output shows nothing.
    assert!(
        stored == expected,
        "{}: the stored .{end} is another; regenerate with ./sketch {}",
        name(file),
        name(file)
    );
}

#[test]
fn each_stored_sketch_has_its_lines_and_picture_beside_it() {
    let files = stored();
    assert!(files.len() >= LEAST, "{} sketches are stored", files.len());
    for file in files {
        let story = story(&file);
        assert_stored(&file, "txt", &lines::tell(&story));
        assert_stored(&file, "svg", &picture::draw(&story));
    }
}

#[test]
fn a_mistake_or_a_dropped_premise_shows_two_histories_and_the_rules_do_not() {
    let has_conflict = |broken: &[Broken]| broken.iter().any(|broken| matches!(broken, Broken::Conflict { .. }));
    let (mut mistakes, mut dropped) = (vec![], 0);
    for file in stored() {
        let story = story(&file);
        for run in &story.runs {
            let is_shown = run.rules != Rules::Paper || !run.breaches.is_empty();
            assert_eq!(has_conflict(&run.broken), is_shown, "{}, {:?}", name(&file), run.rules);
        }
        mistakes.extend(story.schedule.mistake);
        dropped += usize::from(!story.runs[0].breaches.is_empty());
    }
    assert!(
        Rules::MISTAKES.iter().all(|mistake| mistakes.contains(mistake)),
        "{mistakes:?}"
    );
    assert!(dropped >= 3, "{dropped} sketches drop a premise");
}

/// The first call after which the proved code and the model by these rules differ, in reply, decision, standing log, text or
/// page.
fn first_difference_under(rules: Rules, n: u8, own: u8, calls: &[Call]) -> Option<usize> {
    let mut proved = Proved::open(n, own).unwrap();
    let mut model = Model::open(rules, n, own).unwrap();
    assert_eq!(proved.page(), model.page(), "a fresh bench");
    let differs = |call: &Call| {
        let replies = proved.call(call) == model.call(call);
        let kept = (proved.decided(), proved.standing(), proved.text()) == (model.decided(), model.standing(), model.text());
        !(replies && kept && proved.page() == model.page())
    };
    calls.iter().position(differs)
}

fn first_difference(n: u8, own: u8, calls: &[Call]) -> Option<usize> {
    first_difference_under(Rules::Paper, n, own, calls)
}

#[test]
fn each_mistake_would_be_seen_in_its_sketch() {
    for story in stored().iter().map(|file| story(file)) {
        let Some(mistake) = story.schedule.mistake else {
            continue;
        };
        let mut rolls = story.runs[0].benches.iter().map(|bench| read_roll(&bench.roll).unwrap());
        let is_seen = rolls.any(|roll| first_difference_under(mistake, roll.n, roll.own, &roll.calls).is_some());
        assert!(is_seen, "{mistake:?}");
    }
}

#[test]
fn what_is_no_act_made_nothing_and_a_roll_too_short_has_no_page() {
    let file = stored().into_iter().find(|file| file.ends_with("sample.sketch")).unwrap();
    let roll = &story(&file).runs[0].benches[0].roll;
    let made: Vec<usize> = (0..15)
        .map(|event| roll_made(roll, event).map_or(0, |bytes| bytes.len()))
        .collect();
    assert_eq!(made, [0, 26, 0, 26, 0, 0, 0, 0, 0, 0, 0, 26, 0, 0, 0]);
    assert!(roll_page(roll, 14).is_some() && roll_page(roll, 15).is_none());
    assert!(roll_made(&roll[1..], 1).is_none() && roll_page(&roll[1..], 0).is_none());
}

#[test]
fn proved_code_and_model_show_the_same_of_every_stored_sketch() {
    for file in stored() {
        for bench in &story(&file).runs[0].benches {
            let roll = read_roll(&bench.roll).unwrap();
            let difference = first_difference(roll.n, roll.own, &roll.calls);
            assert_eq!(difference, None, "{}, bench {}", name(&file), bench.own);
        }
    }
}

/// Calls at the last beats, where nothing is proposed, voted or snapped any more.
#[test]
fn proved_code_and_model_show_the_same_after_the_last_view() {
    let act = Call::Act {
        block: Block { name: 6, count: 2 },
        priority: 9,
    };
    let heard = |view| (0..3).map(move |sender| Call::Receive(vote(sender, view, vec![Block { name: 5, count: 1 }]).write()));
    let mut calls = vec![];
    for beat in LAST_BEAT - 12..=LAST_BEAT {
        calls.push(Call::Begin(beat));
        calls.extend(heard(beat / 4 - 1).chain(heard(beat / 4)));
        calls.push(act.clone());
    }
    assert_eq!(first_difference(4, 3, &calls), None);
}

/// Rolls drawn for comparing texts: crowds, long logs, refused calls of all kinds.
#[test]
fn proved_code_and_model_show_the_same_of_random_rolls() {
    let rolls = (0..ROLLS).filter_map(|seed| Some((seed, read_roll(&Generator::of(seed).roll(seed)).ok()?)));
    let mut tried = 0;
    for (seed, roll) in rolls {
        let calls = &roll.calls[..roll.calls.len().min(CALLS)];
        assert_eq!(first_difference(roll.n, roll.own, calls), None, "seed {seed}");
        tried += usize::from(!calls.is_empty());
    }
    assert!(tried > ROLLS as usize / 4, "{tried} rolls were tried");
}

#[test]
fn proved_code_and_model_show_the_same_of_random_volumes() {
    let mut calls = 0;
    for seed in 0..VOLUMES {
        for keeper in &volume::play::play(seed, Rules::Paper, None).keepers {
            let list: Vec<Call> = keeper.list.iter().take(CALLS).map(|entry| entry.call.clone()).collect();
            let difference = first_difference(keeper.n, keeper.own, &list);
            assert_eq!(difference, None, "seed {seed}, bench {} of {}", keeper.own, keeper.n);
            calls += list.len();
        }
    }
    println!("{calls} calls in {VOLUMES} volumes, all pages alike");
}
