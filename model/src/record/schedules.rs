//! Tests: the sample and the schedules of document 01, and the limits of refusals 8 to 11.
use super::agreement::{Agreement, Grade};
use super::lists::{Lists, Log};
use super::proposals::Proposals;
use super::roll::roll_text;
use super::*;
use crate::bench_cases::events::Events;
use crate::proved::LEAST_BUFFER;

fn log(names: &[u64]) -> Vec<Block> {
    names.iter().map(|&name| Block { name, count: 1 }).collect()
}

fn text(events: &Events, n: u8) -> String {
    String::from_utf8(roll_text(&events.roll(n, 0))).unwrap()
}

fn line(events: &Events, n: u8) -> String {
    text(events, n).lines().last().unwrap().to_owned()
}

#[test]
fn the_sample() {
    let mut events = Events::new();
    for beat in 0..=6 {
        events.begin(beat);
        let name = if beat == 0 { 5 } else { 0 };
        events.act(Block { name, count: 1 }, 9);
    }
    let acts = [
        "proposal 1 0",
        "log 1 0",
        "none 0 0",
        "none 0 0",
        "none 0 0",
        "log 1 0",
        "none 0 1",
    ];
    let lines: String = (0..)
        .zip(acts)
        .map(|(beat, act)| format!("begin {beat} ok\nact {act}\n"))
        .collect();
    assert_eq!(text(&events, 1), format!("bench 0 of 1\n{lines}"));
}

/// An agreement of view 0 in lists of its own.
struct Table {
    names: Vec<u64>,
    counts: Vec<u16>,
    agreement: Agreement,
}

impl Table {
    /// The logs of senders 0, 1 and on, and then so many equivocators.
    fn of(logs: &[&[u64]], equivocators: u8) -> Table {
        let (names, counts) = (vec![0; LEAST_LENT], vec![0; LEAST_LENT]);
        let mut table = Table {
            names,
            counts,
            agreement: Agreement::empty(0),
        };
        let after = logs.len() as u8;
        for (sender, names) in (0..).zip(logs) {
            assert_eq!(table.file(sender, names), Word::First);
        }
        for sender in after..after + equivocators {
            assert_eq!(
                (table.file(sender, &[1]), table.file(sender, &[2])),
                (Word::First, Word::Second)
            );
            assert_eq!(table.file(sender, &[1]), Word::Known);
        }
        table
    }

    fn file(&mut self, sender: u8, names: &[u64]) -> Word {
        let bytes = log_bytes(sender, 0, &log(names));
        let (_, read) = message::read(32, &bytes).ok().unwrap();
        let mut lists = Lists::of(&mut self.names, &mut self.counts).unwrap();
        self.agreement.file(&mut lists, sender as usize, &read)
    }

    fn longest(&mut self, grade: Grade) -> Option<Vec<u64>> {
        let lists = Lists::of(&mut self.names, &mut self.counts).unwrap();
        self.agreement.longest(&lists, grade).map(|log| lists.names_of(log).to_vec())
    }
}

#[test]
fn grade_zero_counts_equivocators_in_s_alone() {
    let zero = |logs: &[&[u64]], equivocators| Table::of(logs, equivocators).longest(Grade::Zero);
    assert_eq!(zero(&[&[5], &[5], &[5, 6]], 0), Some(vec![5]));
    assert_eq!(zero(&[&[5], &[5], &[7], &[7]], 0), Some(vec![]));
    assert_eq!(zero(&[&[5]], 3), None);
    assert_eq!(zero(&[], 0), None);
    assert_eq!(zero(&[&[5], &[5], &[5]], 1), Some(vec![5]));
    assert_eq!(zero(&[&[5], &[5]], 2), None);
}

#[test]
fn grade_one_needs_snapshot_two() {
    let mut table = Table::of(&[&[5], &[5], &[5]], 0);
    assert_eq!(table.longest(Grade::One), None);
    table.agreement.two = Some(0b011);
    assert_eq!((table.longest(Grade::One), table.longest(Grade::Two)), (Some(vec![5]), None));
    table.agreement.two = Some(0b001);
    assert_eq!(table.longest(Grade::One), None);
}

#[test]
fn later_equivocation_is_judged() {
    let mut table = Table::of(&[&[5], &[5], &[5]], 0);
    table.agreement.two = Some(0b111);
    assert_eq!(table.file(2, &[6]), Word::Second);
    assert_eq!(table.longest(Grade::One), Some(vec![5]));
    table.agreement.two = Some(0b110);
    assert_eq!(table.longest(Grade::One), None);
}

#[test]
fn the_longest_is_found_past_branches() {
    let mut branching = Table::of(
        &[
            &[5, 6, 7],
            &[5, 6, 8],
            &[5, 6, 8, 1],
            &[5, 6, 8, 2],
            &[5, 6, 8, 2],
            &[4],
            &[5],
        ],
        0,
    );
    assert_eq!(branching.longest(Grade::Zero), Some(vec![5, 6, 8]));
    let mut first_is_alone = Table::of(&[&[1, 2], &[3, 4, 5], &[3, 4, 6], &[3, 4]], 0);
    assert_eq!(first_is_alone.longest(Grade::Zero), Some(vec![3, 4]));
}

#[test]
fn the_vote_is_for_the_best_proposal_with_the_lock() {
    let (mut names, mut counts) = (vec![0; LEAST_LENT], vec![0; LEAST_LENT]);
    (names[0], counts[0]) = (5, 1);
    let mut lists = Lists::of(&mut names, &mut counts).unwrap();
    let lock = Log { at: 0, blocks: 1 };
    let mut proposals = Proposals::empty(0);
    for (sender, names, priority) in [(0, [5, 6].as_slice(), 9), (1, &[5, 7], 9), (2, &[8], 20)] {
        let bytes = proposal_bytes(sender, 0, priority, &log(names));
        let (_, read) = message::read(32, &bytes).ok().unwrap();
        assert_eq!(proposals.file(&mut lists, sender as usize, &read, priority), Word::First);
    }
    let best = |proposals: &Proposals| proposals.best(&lists, lock).map(|log| lists.names_of(log).to_vec());
    assert_eq!(best(&proposals), Some(vec![5, 6]));
    proposals.aside = 1;
    assert_eq!(best(&proposals), Some(vec![5, 7]));
    proposals.aside = 0b11;
    assert_eq!(best(&proposals), None);
}

#[test]
fn windows() {
    let answer = |beat, message: &[u8]| {
        let mut events = Events::new();
        events.begin(beat);
        events.receive(message);
        line(&events, 4)
    };
    let (vote, proposal) = (log_bytes(1, 1, &log(&[5])), proposal_bytes(1, 1, 3, &log(&[5])));
    assert_eq!(
        [4, 5, 10, 11].map(|beat| answer(beat, &vote)),
        ["take 21", "take first", "take first", "take 21"]
    );
    assert_eq!(
        [3, 4, 5, 6].map(|beat| answer(beat, &proposal)),
        ["take 21", "take first", "take first", "take 21"]
    );
}

#[test]
fn begin_again_and_act_again() {
    let mut events = Events::new();
    events.begin(4);
    events.begin(4);
    assert_eq!(line(&events, 1), "begin 4 20");
    events.act_alone();
    events.act_alone();
    assert_eq!(line(&events, 1), "act 22");
}

#[test]
fn the_last_beats_propose_vote_and_snap_nothing() {
    let mut events = Events::new();
    for beat in LAST_BEAT - 6..=LAST_BEAT {
        events.begin(beat);
        events.act(Block { name: 5, count: 1 }, 9);
    }
    events.begin(LAST_BEAT + 1);
    assert_eq!(text(&events, 1).lines().filter(|line| *line == "act none 0 0").count(), 7);
    assert_eq!(line(&events, 1), "begin 4000007 10");
}

#[test]
fn a_decision_in_conflict_parts_for_good() {
    let mut events = Events::new();
    for (view, name) in [(0, 5), (1, 6), (2, 5)] {
        events.begin(4 * view + 1);
        (1..4).for_each(|sender| events.receive(&log_bytes(sender, view, &log(&[name]))));
        events.begin(4 * view + 2);
        events.act_alone();
    }
    events.begin(14);
    events.act_alone();
    let text = text(&events, 4);
    let acts: Vec<&str> = text.lines().filter(|line| line.starts_with("act")).collect();
    assert_eq!(
        acts,
        ["act none 0 0", "act none 0 1", "act none 0 1 parted", "act none 0 1 parted"]
    );
}

fn fresh() -> (Bench, Vec<u64>, Vec<u16>, Vec<u32>, Vec<u8>) {
    let (names, counts, totals) = (vec![0; LEAST_LENT], vec![0; LEAST_LENT], vec![0; LEAST_TOTALS]);
    let bench = Bench::open(4, 1, &names, &counts, &totals).unwrap();
    (bench, names, counts, totals, vec![0; MOST_BYTES])
}

#[test]
fn open_tests_numbers_and_then_lists() {
    let (_, names, counts, totals, _) = fresh();
    assert_eq!(
        [(0, 0), (33, 0), (4, 4)].map(|(n, own)| Bench::open(n, own, &[], &[], &[]).err()),
        [Some(7); 3]
    );
    assert_eq!(Bench::open(4, 1, &names[1..], &counts, &totals).err(), Some(8));
    assert_eq!(Bench::open(4, 1, &names, &counts[1..], &totals).err(), Some(8));
    assert_eq!(Bench::open(4, 1, &names, &counts, &totals[1..]).err(), Some(8));
    assert!(Bench::open(32, 31, &names, &counts, &totals).is_ok());
    assert!(
        Bench::open(32, 31, &names, &counts, &[u32::MAX; 64]).is_ok(),
        "whatever the totals hold"
    );
}

/// Records with one cause of 9 each.
fn beyond() -> Vec<fn(&mut Bench)> {
    vec![
        |b| b.n = 0,
        |b| b.n = 33,
        |b| b.own = 4,
        |b| b.next = LAST_BEAT + 2,
        |b| b.decided = 65,
        |b| b.agreements[0].view = LAST_VIEW + 1,
        |b| b.agreements[1].lengths[31] = 65,
        |b| b.agreements[0].voters = 1 << 4,
        |b| b.agreements[1].equivocators = 1 << 31,
        |b| (b.agreements[0].voters, b.agreements[0].equivocators) = (2, 2),
        |b| b.agreements[0].one = Some(1),
        |b| b.agreements[1].two = Some(8),
        |b| b.proposals.view = LAST_VIEW + 1,
        |b| b.proposals.lengths[5] = 255,
        |b| b.proposals.filed = 1 << 4,
        |b| b.proposals.aside = 1 << 31,
    ]
}

#[test]
fn nine_comes_before_eight_and_leaves_everything() {
    for edit in beyond() {
        let (mut bench, _, _, _, mut out) = fresh();
        edit(&mut bench);
        let before = bench;
        let none = Block { name: 0, count: 0 };
        assert_eq!(bench.begin(&[], &[], &[], LAST_BEAT + 1), Err(9));
        assert_eq!(bench.receive(&mut [], &mut [], &[], &[]), Err(9));
        assert_eq!(bench.act(&mut [], &mut [], &mut [], &mut out[1..], none, 0), Err(9));
        assert_eq!(bench.find(&[], &[], &[], u32::MAX), Err(9));
        assert_eq!(bench, before);
    }
}

#[test]
fn records_at_their_limits_are_served() {
    let (mut bench, names, counts, totals, _) = fresh();
    bench.agreements[0] = Agreement {
        voters: 1,
        equivocators: 14,
        one: Some(15),
        two: Some(8),
        ..Agreement::empty(LAST_VIEW)
    };
    bench.agreements[0].lengths = [64; 32];
    bench.proposals = Proposals {
        filed: 15,
        aside: 15,
        lengths: [64; 32],
        ..Proposals::empty(LAST_VIEW)
    };
    (bench.decided, bench.next) = (64, LAST_BEAT + 1);
    assert_eq!(bench.begin(&names, &counts, &totals, LAST_BEAT), Err(20));
    (bench.n, bench.own, bench.next) = (32, 31, LAST_BEAT);
    assert_eq!(bench.begin(&names, &counts, &totals, LAST_BEAT), Ok(()));
}

#[test]
fn the_other_refusals_have_their_order() {
    let (mut bench, mut names, mut counts, mut totals, mut out) = fresh();
    let none = Block { name: 0, count: 0 };
    assert_eq!(bench.begin(&names[1..], &counts, &totals, LAST_BEAT + 1), Err(8));
    assert_eq!(bench.begin(&names, &counts, &totals[1..], LAST_BEAT + 1), Err(8));
    assert_eq!(bench.begin(&names, &counts, &totals, LAST_BEAT + 1), Err(10));
    assert_eq!(bench.receive(&mut names, &mut counts[1..], &totals, &[]), Err(8));
    assert_eq!(bench.receive(&mut names, &mut counts, &totals[1..], &[]), Err(8));
    assert_eq!(bench.receive(&mut names, &mut counts, &totals, &[]), Err(22));
    let short = &mut out[1..];
    assert_eq!(bench.act(&mut names[1..], &mut counts, &mut totals, short, none, 0), Err(8));
    assert_eq!(bench.act(&mut names, &mut counts, &mut totals[1..], short, none, 0), Err(8));
    assert_eq!(bench.act(&mut names, &mut counts, &mut totals, short, none, 0), Err(11));
    assert_eq!(bench.act(&mut names, &mut counts, &mut totals, &mut out, none, 0), Err(22));
    assert_eq!(bench.find(&names, &counts[1..], &totals, 0), Err(8));
    assert_eq!(bench.find(&names, &counts, &totals[1..], 0), Err(8));
    assert_eq!(bench.find(&names, &counts, &totals, 0), Err(23));
    bench.gathering = true;
    assert_eq!(bench.act(&mut names, &mut counts, &mut totals, &mut out, none, 0), Err(22));
}

#[test]
fn a_short_text_buffer_stays_as_it_was() {
    let roll = Events::new().roll(32, 31);
    let mut short = vec![7; LEAST_BUFFER - 1];
    assert_eq!(
        (write_roll_text(&roll, &mut short), short.iter().all(|&byte| byte == 7)),
        (0, true)
    );
    let mut text = vec![7; LEAST_BUFFER];
    assert_eq!(write_roll_text(&roll, &mut text), 15);
    assert_eq!(&text[..15], b"bench 31 of 32\n");
    assert!(text[15..].iter().all(|&byte| byte == 7));
}

#[test]
fn every_other_form_is_no_roll() {
    let mut events = Events::new();
    events.begin(0);
    let roll = events.roll(1, 0);
    let edited = |place: usize, byte: u8| {
        let mut roll = roll.clone();
        roll[place] = byte;
        roll
    };
    let long = [roll.as_slice(), &[0]].concat();
    let mut wrong = vec![
        vec![],
        roll[..3].to_vec(),
        roll[..roll.len() - 1].to_vec(),
        long,
        vec![0; 65_537],
    ];
    wrong.extend(
        [
            (0, 0),
            (0, 33),
            (1, 1),
            (2, 2),
            (3, 5),
            (4, 0),
            (4, 4),
            (5, 1),
            (6, 5),
            (4, 3),
        ]
        .map(|(p, b)| edited(p, b)),
    );
    let mut message = Events::new();
    message.receive(&[0; 657]);
    wrong.push(message.roll(1, 0));
    for roll in wrong {
        assert_eq!(roll_text(&roll), b"roll ?\n");
    }
    assert_eq!(roll_text(&roll), b"bench 0 of 1\nbegin 0 ok\n");
}
