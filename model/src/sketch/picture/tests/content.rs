//! That what a story tells is in its picture.
use super::seen::Seen;
use super::stories::{self, large, mistaken, odd, small};
use crate::history::message::Kind;
use crate::sketch::picture::mark::Sign;
use crate::sketch::picture::panel::Panel;
use crate::sketch::picture::signs::words;
use crate::sketch::picture::words::{log, set};
use crate::sketch::story::{Act, BeatRun, Story};
use std::collections::BTreeSet;

/// Every act of a story, with where it stands.
fn acts(story: &Story) -> impl Iterator<Item = (u8, &BeatRun, &Act)> {
    let benches = story.runs.iter().flat_map(|run| &run.benches);
    let beats = benches.flat_map(|bench| bench.beats.iter().map(move |beat| (bench.own, beat)));
    beats.filter_map(|(own, beat)| beat.act.as_ref().map(|act| (own, beat, act)))
}

/// What a story tells of its acts, as the picture says it when pointed at.
fn told(story: &Story) -> Vec<String> {
    let mut told = vec![];
    for (own, beat, act) in acts(story) {
        let here = format!("bench {own}, beat {}: ", beat.beat);
        if let Some(made) = &act.made {
            let kind = if made.kind == Kind::Log { "LOG" } else { "PROPOSAL" };
            told.push(format!("{here}makes the {kind} {} of view {}", log(&made.log), made.view));
        }
        if let Some(decided) = &act.decided {
            told.push(format!("{here}decides {}", log(decided)));
        }
        if let Some(taken) = &act.snapshot {
            let (number, senders) = (if taken.number == 1 { "one" } else { "two" }, set(&taken.senders));
            told.push(format!("{here}takes snapshot {number} of GA {}: {senders}", taken.view));
        }
    }
    told
}

#[test]
fn every_message_made_decision_and_snapshot_appears() {
    for (name, story) in stories::all() {
        let (seen, told) = (Seen::of(&story), told(&story));
        assert!(
            told.len() >= 4 || matches!(name, "passed_on" | "breached" | "least"),
            "{name}"
        );
        let mut titles: Vec<&str> = seen.titles().collect();
        for words in told {
            let place = titles.iter().position(|title| title.starts_with(&words));
            titles.swap_remove(place.unwrap_or_else(|| panic!("{name}: {words}")));
        }
    }
}

/// The legend shows one of each, and two boxes with a LOG.
#[test]
fn each_mark_is_written_once_for_each_thing() {
    for (name, story) in [("small", small()), ("large", large())] {
        let seen = Seen::of(&story);
        let number = |of: fn(&Act) -> bool| acts(&story).filter(|(_, _, act)| of(act)).count();
        assert_eq!(seen.count("DECIDES ["), 1 + number(|act| act.decided.is_some()), "{name}");
        let snapshots = seen.count("one {") + seen.count("two {");
        assert_eq!(snapshots, 1 + number(|act| act.snapshot.is_some()), "{name}");
        let votes = number(|act| act.made.as_ref().is_some_and(|made| made.kind == Kind::Log));
        assert_eq!(seen.count("LOG ["), 2 + votes + story.schedule.tells.len(), "{name}");
    }
}

#[test]
fn what_is_read_learned_and_slept_is_written() {
    let seen = Seen::of(&small());
    let counts = |words: [&str; 4]| words.map(|words| seen.count(words));
    assert_eq!(
        counts(["g2 [5] 3/4", "g1 [5] 3/4", "g0 [5] 3/4", "lock [5]"]),
        [3 + 1, 2, 2, 2 + 1]
    );
    let learned: Vec<&str> = seen.texts().filter(|text| text.starts_with("E {")).collect();
    assert_eq!(
        learned,
        ["E {3}", "E {3}", "E {3} v0", "E {3} v0"],
        "at beats 3 and 6, and in the legend"
    );
    assert_eq!(
        counts(["asleep", "begins only", "keeps the rules", "BREAKS THE RULES"]),
        [7 + 1, 1, 3, 1]
    );
    assert_eq!(
        counts(["3 to 1: {0,1,2}", "2 to 1: {0,1}", "All three premises hold.", "CONFLICT"]),
        [1 + 1, 2, 1, 0]
    );
    assert_eq!(seen.count("No two decided logs conflict."), 1);
}

#[test]
fn presence_is_a_bar_a_hatched_bar_or_a_dotted_line() {
    let seen = Seen::of(&small());
    let bars = |fill: &str| seen.drawn("rect", &[("height", "6"), ("fill", fill)]).len();
    assert_eq!(
        (bars("#000"), bars("url(#rising)")),
        (2 * 11 + 3 + 1, 1 + 1),
        "and one of each in the legend"
    );
    assert_eq!(seen.drawn("line", &[("stroke-dasharray", "1 5")]).len(), 7 + 1);
}

#[test]
fn two_stories_are_two_hatchings_two_lines_and_words() {
    let seen = Seen::of(&small());
    assert_eq!(
        (seen.count("two stories (1)"), seen.count("two stories (2)")),
        (2 + 1, 2),
        "and in the legend"
    );
    let (solid, dashed): (Vec<_>, Vec<_>) = seen
        .drawn("polyline", &[])
        .into_iter()
        .partition(|line| !line.attributes.contains_key("stroke-dasharray"));
    assert_eq!((solid.len(), dashed.len()), (2 + 1, 2), "one in the legend");
    assert!(dashed.iter().all(|line| line.is("stroke-dasharray", "7 3")));
    let hatched = |seen: &Seen, fill: &str| seen.drawn("rect", &[("fill", fill), ("width", "14")]).len();
    assert_eq!(
        (hatched(&seen, "url(#rising)"), hatched(&seen, "url(#falling)")),
        (2 + 1, 2 + 1)
    );
    let (seen, tells) = (Seen::of(&large()), large().schedule.tells.len());
    assert_eq!(hatched(&seen, "url(#falling)"), tells / 2 + 1);
    assert_eq!(seen.drawn("polyline", &[("stroke-dasharray", "7 3")]).len(), tells / 2);
}

#[test]
fn each_message_told_has_an_arrowhead_at_everyone_it_is_handed_to() {
    let (seen, story) = (Seen::of(&large()), large());
    for tell in &story.schedule.tells {
        assert!(!tell.to.is_empty());
        let (log, view, sender) = (log(&tell.message.log), tell.message.view, tell.message.sender);
        let words =
            |to: u8| format!("LOG {log} of view {view}, of bench {sender}, handed to bench {to} by bench {sender}: first");
        let handed: BTreeSet<u8> = (0..32).filter(|&to| seen.titles().any(|title| title == words(to))).collect();
        assert_eq!(handed, tell.to.iter().copied().collect(), "{tell:?}");
    }
    let told: usize = story.schedule.tells.iter().map(|tell| tell.to.len()).sum();
    let decided = acts(&story).filter(|(_, _, act)| act.decided.is_some()).count();
    assert_eq!(
        seen.drawn("polygon", &[("fill", "#000")]).len(),
        told + 1 + decided + 1,
        "and one of each in the legend"
    );
}

#[test]
fn both_runs_have_their_headings_and_the_same_columns() {
    let seen = Seen::of(&mistaken());
    let headings = [
        "By the rules (the proved code)",
        "With the mistake: at least half for more than half (the model)",
    ];
    assert_eq!(headings.map(|heading| seen.count(heading)), [1, 1]);
    for beat in 0..=10 {
        let words = format!("{beat} = 4v{}", ["", "+1", "+2", "+3"][beat % 4]);
        let heads = seen.elements.iter().filter(|element| element.text == words);
        let places: Vec<i32> = heads.map(|head| head.number("x")).collect();
        assert_eq!(places.len(), 2, "beat {beat}");
        assert_eq!(places[0], places[1], "beat {beat}");
    }
}

/// The legend shows each mark once more.
#[test]
fn what_is_odd_is_written_too() {
    let seen = Seen::of(&odd());
    let words = [
        "forged as bench 1",
        "to nobody",
        "refused 21",
        "refused 22",
        "aside {3}",
        "no vote",
    ];
    assert_eq!(words.map(|words| seen.count(words)), [1 + 1, 1 + 1, 2 + 1, 1, 1 + 1, 1 + 1]);
    let words = [
        "three stories (3)",
        "g2 no snapshot",
        "g1 none 2/4",
        "E {0,4}",
        "DECIDES []",
        "stands [5]",
        "LOG [2] v7",
    ];
    assert_eq!(words.map(|words| seen.count(words)), [1; 7]);
    let white = seen.drawn("polygon", &[("fill", "#fff"), ("stroke", "#000")]);
    assert_eq!(white.len(), 2 + 1, "refused by two benches, and one in the legend");
}

#[test]
fn what_is_cut_is_whole_when_pointed_at() {
    let (seen, story) = (Seen::of(&odd()), odd());
    let whole = log(&story.schedule.tells[0].message.log);
    assert!(seen.titles().any(|title| title.contains(&whole)));
    assert!(seen.texts().all(|text| !text.contains(&whole)));
    assert_eq!(
        (seen.count("LOG [18446744…"), seen.count("LOG [1844674407…")),
        (1, 1),
        "told and voted"
    );
    let title = seen.titles().next().expect("a title");
    assert!(
        title.starts_with("Odd <things> & \"quotes\", 'apostrophes', \u{fffd} and"),
        "{title}"
    );
}

#[test]
fn the_legend_has_words_for_every_mark_used() {
    for (name, story) in stories::all() {
        let (seen, beats) = (Seen::of(&story), story.runs[0].benches[0].beats.len());
        let written = seen.texts().collect::<Vec<&str>>().join(" ");
        let used = |run| Panel::new(&story, run, beats).signs();
        let signs: BTreeSet<Sign> = story.runs.iter().flat_map(used).collect();
        assert!(signs.contains(&Sign::Awake), "{name}");
        for sign in signs {
            assert!(written.contains(words(sign)), "{name}: {sign:?}");
        }
    }
}
