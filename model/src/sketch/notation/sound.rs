//! Sketches that can be read, and what they say.
use super::read;
use crate::history::bench::Rules;
use crate::history::message::{Block, Kind, Log, Message};
use crate::sketch::schedule::{Fate, Offer, Schedule, Tell};
use crate::volume::schedule::Presence::{self, Awake, Begins, Skips};

/// Every form there is.
const WHOLE: &str = "\
# A sketch of every form.
title Two stories:  [7] and [8]\t(half-is-enough)   # and no more

benches 6
keepers 4, 0-2
beats 0-11
mistake half-is-enough
1 2 sleeps 3 5-6, 8
4 begins 3-4
all sleeps 11
0 offers 5 at 0
4 offers 18446744073709551615*65535 at 8 priority 18446744073709551615
3 sends LOG v0 [7] to 0 at 1
3 sends LOG v0 as 0 [] to 4,0 at 2 # forged
5 sends PROPOSAL v1 [5 6*3] to all at 5
5 sends PROPOSAL v1000000 as 3 [5,6*0 , 7] priority 0 to 0-2 4 at 9
LOG v0 of 3 [7] never reaches 2
LOG v0 of 3 [8] reaches 0-2 at 2
LOG v1 of 4 reaches all at 7
PROPOSAL v0 of 0 never reaches all
PROPOSAL v2 of 4 [5] reaches 2 at 9
";

fn log(blocks: &[(u64, u16)]) -> Log {
    let block = |&(name, count): &(u64, u16)| Block { name, count };
    blocks.iter().map(block).collect()
}

fn message(kind: Kind, sender: u8, view: u32, priority: u64, blocks: &[(u64, u16)]) -> Message {
    Message {
        kind,
        sender,
        view,
        priority,
        log: log(blocks),
    }
}

fn tell(teller: u8, beat: u32, to: &[u8], message: Message) -> Tell {
    Tell {
        teller,
        beat,
        to: to.to_vec(),
        message,
    }
}

fn fate(kind: Kind, view: u32, sender: u8, blocks: Option<&[(u64, u16)]>, to: &[u8], at: Option<u32>) -> Fate {
    Fate {
        kind,
        view,
        sender,
        log: blocks.map(log),
        to: to.to_vec(),
        at,
    }
}

/// Awake at beats 0 to 11 but for these.
fn row(but: &[(u32, Presence)]) -> Vec<Presence> {
    let said = |beat: u32| but.iter().find(|(at, _)| *at == beat);
    (0..12)
        .map(|beat| said(beat).map_or(Awake, |&(_, presence)| presence))
        .collect()
}

fn offers() -> Vec<Offer> {
    let offer = |bench, beat, name, count, priority| Offer {
        bench,
        beat,
        block: Block { name, count },
        priority,
    };
    vec![offer(0, 0, 5, 1, 1), offer(4, 8, u64::MAX, u16::MAX, u64::MAX)]
}

fn whole() -> Schedule {
    let sleeper = row(&[(3, Skips), (5, Skips), (6, Skips), (8, Skips), (11, Skips)]);
    Schedule {
        title: "Two stories: [7] and [8] (half-is-enough)".to_string(),
        n: 6,
        keepers: vec![0, 1, 2, 4],
        first_beat: 0,
        last_beat: 11,
        mistake: Some(Rules::HalfIsEnough),
        presence: vec![
            row(&[(11, Skips)]),
            sleeper.clone(),
            sleeper,
            row(&[(3, Begins), (4, Begins), (11, Skips)]),
        ],
        offers: offers(),
        tells: vec![
            tell(3, 1, &[0], message(Kind::Log, 3, 0, 0, &[(7, 1)])),
            tell(3, 2, &[0, 4], message(Kind::Log, 0, 0, 0, &[])),
            tell(5, 5, &[0, 4], message(Kind::Proposal, 5, 1, 1, &[(5, 1), (6, 3)])),
            tell(
                5,
                9,
                &[0, 1, 2, 4],
                message(Kind::Proposal, 3, 1_000_000, 0, &[(5, 1), (6, 0), (7, 1)]),
            ),
        ],
        fates: vec![
            fate(Kind::Log, 0, 3, Some(&[(7, 1)]), &[2], None),
            fate(Kind::Log, 0, 3, Some(&[(8, 1)]), &[0, 1, 2], Some(2)),
            fate(Kind::Log, 1, 4, None, &[0, 1, 2, 4], Some(7)),
            fate(Kind::Proposal, 0, 0, None, &[0, 1, 2, 4], None),
            fate(Kind::Proposal, 2, 4, Some(&[(5, 1)]), &[2], Some(9)),
        ],
    }
}

/// Whether a fault in the text, if there is one, lies within it.
fn is_placed(text: &str) -> bool {
    let Err(fault) = read(text) else {
        return true;
    };
    let line = text.split('\n').nth(fault.line - 1);
    line.is_some_and(|line| (1..=line.chars().count() + 1).contains(&fault.column))
}

fn schedule(text: &str) -> Schedule {
    read(text).unwrap_or_else(|fault| panic!("{fault} in\n{text}"))
}

#[test]
fn every_form_says_what_it_says() {
    assert_eq!(read(WHOLE), Ok(whole()));
}

#[test]
fn tabs_windows_line_ends_and_a_byte_order_mark_change_nothing() {
    assert_eq!(read(&WHOLE.replace(' ', "\t")), Ok(whole()));
    assert_eq!(read(&WHOLE.replace('\n', "\r\n")), Ok(whole()));
    assert_eq!(read(&format!("\u{feff}{WHOLE}")), Ok(whole()));
    assert_eq!(read(WHOLE.trim_end()), Ok(whole()));
}

#[test]
fn without_more_all_keep_the_rules_and_are_awake() {
    let least = schedule("benches 2\nbeats 7-8");
    let expected = Schedule {
        title: String::new(),
        n: 2,
        keepers: vec![0, 1],
        first_beat: 7,
        last_beat: 8,
        mistake: None,
        presence: vec![vec![Awake; 2]; 2],
        offers: vec![],
        tells: vec![],
        fates: vec![],
    };
    assert_eq!(least, expected);
    assert_eq!(schedule("benches 2\nkeepers all\nbeats 7-8"), least);
}

#[test]
fn lists_may_have_ranges_commas_and_any_order() {
    let with = |list: &str| schedule(&format!("benches 9\nkeepers 0-7\nbeats 0-9\n{list} sleeps 4")).presence;
    let expected = with("1 3 4 5 6");
    assert_eq!(expected.iter().filter(|row| row[4] == Skips).count(), 5);
    for list in ["1,3,4,5,6", "3-6 1", "1, 3 - 5,6", "6-6,5 4\t3,1-1", "01 003-6"] {
        assert_eq!(with(list), expected, "{list}");
    }
    let all = with("all");
    assert!(all.iter().all(|row| row[4] == Skips) && all.len() == 8);
}

#[test]
fn statements_may_stand_in_any_order_that_names_nothing_unsaid() {
    let late = "benches 3\nkeepers 0 1\nLOG v0 of 2 never reaches 1\nmistake snapshot-judges\nbeats 0-9\n\
                2 sends LOG v0 [] to all at 3\n1 sleeps 3\n1 sleeps 3-4\ntitle At last";
    let schedule = schedule(late);
    assert_eq!(
        (schedule.title.as_str(), schedule.mistake),
        ("At last", Some(Rules::SnapshotJudges))
    );
    assert_eq!(schedule.tells[0].to, [0], "who sleeps then is known after the line itself");
}

#[test]
fn each_mistake_has_a_name() {
    let names = [
        ("equivocators-unheard", Rules::EquivocatorsUnheard),
        ("majority-of-all", Rules::MajorityOfAll),
        ("half-is-enough", Rules::HalfIsEnough),
        ("snapshots-swapped", Rules::SnapshotsSwapped),
        ("snapshot-judges", Rules::SnapshotJudges),
        ("vote-without-lock", Rules::VoteWithoutLock),
    ];
    for (name, rules) in names {
        assert_eq!(
            schedule(&format!("benches 1\nbeats 0-0\nmistake {name}")).mistake,
            Some(rules)
        );
    }
}

#[test]
fn the_limits_themselves_are_within() {
    let long = "7 ".repeat(64);
    let text = format!("benches 32\nkeepers 0-30\nbeats 3999959-4000006\n31 sends LOG v1000000 [{long}] to 30 at 4000006");
    let schedule = schedule(&text);
    assert_eq!(
        (schedule.n, schedule.presence[30].len(), schedule.tells[0].message.log.len()),
        (32, 48, 64)
    );
}

#[test]
fn what_is_handed_to_a_bench_that_only_begins_and_what_is_refused_there_may_be_said() {
    let text = "benches 3\nkeepers 0 1\nbeats 0-9\n0 begins 2 4\n2 sends LOG v1 [] to 0 at 4\nLOG v0 of 1 reaches 0 at 2";
    let schedule = schedule(text);
    assert_eq!((schedule.tells[0].to.as_slice(), schedule.fates[0].at), (&[0][..], Some(2)));
}

#[test]
fn a_late_message_need_not_find_its_own_sender() {
    let text = "benches 2\nbeats 0-9\n0 sleeps 4\nLOG v0 of 0 reaches all at 4";
    assert_eq!(schedule(text).fates[0].to, [0, 1]);
}

#[test]
fn a_view_may_have_one_beat_and_a_forged_log_may_find_whom_it_seems_to_be_of() {
    let text = "benches 3\nkeepers 0 1\nbeats 6-9\nLOG v0 of 0 never reaches 1\nLOG v2 of 0 never reaches 1\n\
                PROPOSAL v2 of 0 never reaches 1\nLOG v1 of 1 [8] never reaches 1\n2 sends LOG v1 as 1 [8] to 0 at 6";
    assert_eq!(schedule(text).fates.len(), 4);
}

#[test]
fn a_damaged_sketch_has_its_fault_within_it() {
    for (place, c) in WHOLE.char_indices() {
        let (before, after) = (&WHOLE[..place], &WHOLE[place + c.len_utf8()..]);
        assert!(is_placed(before), "{before}");
        for other in ["", " ", "\n", "9", "0", "-", "*", ",", "[", "]", "v", "all", "é"] {
            let damaged = [before, other, after].concat();
            assert!(is_placed(&damaged), "{damaged}");
        }
    }
}
