//! Document 01's schedules small enough to draw, and the readings that are easy to get wrong, each as a list of calls.
use super::bench::{Bench, Call, Reply, Rules, Word, LAST_BEAT};
use super::entries::Found;
use super::message::{Block, Kind, Log, Message, LAST_VIEW};

fn log(names: &[u64]) -> Log {
    names.iter().map(|&name| Block { name, count: 1 }).collect()
}

fn begin(beat: u32) -> Call {
    Call::Begin(beat)
}

/// Hands over a LOG.
fn vote(view: u32, sender: u8, names: &[u64]) -> Call {
    Call::Receive(
        Message {
            kind: Kind::Log,
            sender,
            view,
            priority: 0,
            log: log(names),
        }
        .write(),
    )
}

/// Hands over a PROPOSAL.
fn propose(view: u32, sender: u8, priority: u64, names: &[u64]) -> Call {
    Call::Receive(
        Message {
            kind: Kind::Proposal,
            sender,
            view,
            priority,
            log: log(names),
        }
        .write(),
    )
}

fn act() -> Call {
    offer(0, 0)
}

fn offer(name: u64, priority: u64) -> Call {
    Call::Act {
        block: Block { name, count: 1 },
        priority,
    }
}

/// A sender of two different logs of view 0.
fn equivocate(sender: u8) -> Vec<Call> {
    vec![vote(0, sender, &[101]), vote(0, sender, &[102])]
}

/// Votes of view 0 by senders 0, 1, 2 and so on.
fn votes(logs: &[&[u64]]) -> Vec<Call> {
    (0..).zip(logs).map(|(sender, names)| vote(0, sender, names)).collect()
}

fn run_under(rules: Rules, n: u8, own: u8, calls: &[Call]) -> (Bench, Vec<Reply>) {
    let mut bench = Bench::open_under(rules, n, own).expect("numbers in range");
    let replies = calls.iter().map(|call| bench.call(call)).collect();
    (bench, replies)
}

fn run(n: u8, own: u8, calls: &[Call]) -> (Bench, Vec<Reply>) {
    run_under(Rules::Paper, n, own, calls)
}

fn last(replies: &[Reply]) -> &Reply {
    replies.last().expect("a call")
}

/// The log of the message that the last call made.
fn made(replies: &[Reply]) -> Option<Log> {
    match last(replies) {
        Reply::Acted(made) => made.as_ref().map(|message| message.log.clone()),
        other => panic!("no act: {other:?}"),
    }
}

/// Bench 7 of 8 hears this in view 0 and shows its grade 0 by what it proposes on.
fn grade_0(heard: &[Vec<Call>]) -> Option<Log> {
    let calls = [vec![begin(1)], heard.concat(), vec![begin(4), offer(99, 1)]].concat();
    let mut log = made(&run(8, 7, &calls).1)?;
    assert_eq!(log.pop().map(|block| block.name), Some(99));
    Some(log)
}

/// The same for grade 1, by its vote: heard before snapshot two, and after it.
fn grade_1(before: &[Vec<Call>], after: &[Vec<Call>]) -> Option<Log> {
    grade_1_under(Rules::Paper, before, after)
}

fn grade_1_under(rules: Rules, before: &[Vec<Call>], after: &[Vec<Call>]) -> Option<Log> {
    let calls = [
        vec![begin(3)],
        before.concat(),
        vec![act(), begin(4)],
        after.concat(),
        vec![begin(5), act()],
    ]
    .concat();
    made(&run_under(rules, 8, 7, &calls).1)
}

/// The same for grade 2, by its decision: heard before snapshot one, and after it.
fn grade_2(before: &[Vec<Call>], after: &[Vec<Call>]) -> Option<Log> {
    let calls = [
        vec![begin(2)],
        before.concat(),
        vec![act(), begin(4)],
        after.concat(),
        vec![begin(6), act()],
    ]
    .concat();
    let (bench, _) = run(8, 7, &calls);
    bench.decisions().last().map(|(beat, log)| {
        assert_eq!(*beat, 6);
        log.clone()
    })
}

#[test]
fn grade_0_is_a_majority_of_all_senders() {
    assert_eq!(grade_0(&[votes(&[&[5], &[5], &[5, 6]])]), Some(log(&[5])));
    assert_eq!(grade_0(&[votes(&[&[5], &[5], &[7], &[7]])]), Some(vec![]));
    assert_eq!(grade_0(&[votes(&[&[5]]), equivocate(1), equivocate(2), equivocate(3)]), None);
    assert_eq!(grade_0(&[]), None);
    assert_eq!(grade_0(&[votes(&[&[5], &[5], &[5]]), equivocate(3)]), Some(log(&[5])));
    assert_eq!(grade_0(&[votes(&[&[5], &[5]]), equivocate(2), equivocate(3)]), None);
}

#[test]
fn grade_1_counts_supporters_in_snapshot_two() {
    let third = vec![vote(0, 2, &[5])];
    assert_eq!(
        grade_1(&[votes(&[&[5], &[5]])], std::slice::from_ref(&third)),
        Some(log(&[5]))
    );
    assert_eq!(grade_1(&[votes(&[&[5]])], &[vec![vote(0, 1, &[5])], third]), None);
    assert_eq!(grade_1(&[votes(&[&[5], &[5], &[5]])], &[equivocate(2)]), Some(log(&[5])));
    assert_eq!(
        grade_1(&[votes(&[&[5], &[5]])], &[equivocate(1)]),
        None,
        "an equivocator supports nothing afterwards"
    );
}

#[test]
fn grade_2_counts_supporters_in_snapshot_one() {
    let third = vec![vote(0, 2, &[5])];
    assert_eq!(
        grade_2(&[votes(&[&[5], &[5]])], std::slice::from_ref(&third)),
        Some(log(&[5]))
    );
    assert_eq!(grade_2(&[votes(&[&[5]])], &[vec![vote(0, 1, &[5])], third]), None);
    assert_eq!(grade_2(&[votes(&[&[5], &[5], &[5]])], &[equivocate(2)]), Some(log(&[5])));
    assert_eq!(grade_2(&[votes(&[&[5], &[5]])], &[equivocate(1)]), None);
}

#[test]
fn each_grade_has_its_own_snapshot() {
    let three = votes(&[&[5], &[5], &[5]]);
    let (bench, replies) = run(
        8,
        7,
        &[vec![begin(2)], three.clone(), vec![act(), begin(5), act(), begin(6), act()]].concat(),
    );
    assert_eq!(replies[6], Reply::Acted(None), "acted at 2 and not at 3: no lock");
    assert_eq!(bench.decided(), log(&[5]));
    let (bench, replies) = run(
        8,
        7,
        &[vec![begin(3)], three, vec![act(), begin(5), act(), begin(6), act()]].concat(),
    );
    assert!(matches!(&replies[6], Reply::Acted(Some(message)) if message.log == log(&[5])));
    assert!(bench.decisions().is_empty(), "acted at 3 and not at 2: nothing to decide by");
}

/// A lock of [5] at beat 5 and these proposals of view 1: the vote.
fn vote_with_lock_5(proposals: &[Call]) -> Option<Log> {
    vote_under(Rules::Paper, proposals)
}

fn vote_under(rules: Rules, proposals: &[Call]) -> Option<Log> {
    let calls = [
        &[begin(3)],
        &votes(&[&[5], &[5]])[..],
        &[act(), begin(4)],
        proposals,
        &[begin(5), act()],
    ]
    .concat();
    made(&run_under(rules, 8, 7, &calls).1)
}

#[test]
fn the_vote_is_the_top_proposal_that_extends_the_lock() {
    let three = [propose(1, 0, 9, &[5, 6]), propose(1, 1, 9, &[5, 7]), propose(1, 2, 20, &[8])];
    assert_eq!(vote_with_lock_5(&three), Some(log(&[5, 6])));
    let set_aside = [&three[..], &[propose(1, 0, 9, &[5])]].concat();
    assert_eq!(vote_with_lock_5(&set_aside), Some(log(&[5, 7])));
    let other_priority = [&three[..], &[propose(1, 0, 10, &[5, 6])]].concat();
    assert_eq!(vote_with_lock_5(&other_priority), Some(log(&[5, 7])));
    let all = [&set_aside[..], &[propose(1, 1, 9, &[5])]].concat();
    assert_eq!(vote_with_lock_5(&all), Some(log(&[5])), "else the lock");
    assert_eq!(
        vote_with_lock_5(&[propose(1, 0, 9, &[5]), propose(1, 1, 8, &[5, 6])]),
        Some(log(&[5])),
        "equal to the lock"
    );
    assert_eq!(
        vote_with_lock_5(&[propose(1, 0, 8, &[5, 6, 7]), propose(1, 1, 9, &[5, 6])]),
        Some(log(&[5, 6]))
    );
    assert_eq!(
        vote_with_lock_5(&[propose(1, 0, 9, &[]), propose(1, 1, 0, &[5, 6])]),
        Some(log(&[5, 6]))
    );
    assert_eq!(vote_under(Rules::VoteWithoutLock, &three), Some(log(&[8])));
}

#[test]
fn windows_of_view_1() {
    let word = |beat, call| last(&run(2, 0, &[begin(beat), call]).1).clone();
    for beat in [4, 11] {
        assert_eq!(word(beat, vote(1, 1, &[5])), Reply::Refused(21));
    }
    for beat in 5..=10 {
        assert_eq!(word(beat, vote(1, 1, &[5])), Reply::Took(Word::First));
    }
    for beat in [3, 6] {
        assert_eq!(word(beat, propose(1, 1, 7, &[5])), Reply::Refused(21));
    }
    for beat in [4, 5] {
        assert_eq!(word(beat, propose(1, 1, 7, &[5])), Reply::Took(Word::First));
    }
}

#[test]
fn lengths_at_a_bench() {
    let names: Vec<u64> = (1..=64).collect();
    let Call::Receive(none) = vote(0, 1, &[]) else {
        unreachable!()
    };
    let Call::Receive(most) = vote(0, 1, &names) else {
        unreachable!()
    };
    let Call::Receive(one) = vote(0, 1, &[5]) else {
        unreachable!()
    };
    let word = |bytes: &[u8]| last(&run(2, 0, &[begin(1), Call::Receive(bytes.to_vec())]).1).clone();
    assert_eq!((none.len(), most.len()), (16, 656));
    assert_eq!(word(&none), Reply::Took(Word::First));
    assert_eq!(word(&most), Reply::Took(Word::First));
    assert_eq!(word(&none[..15]), Reply::Refused(1));
    assert_eq!(word(&one[..25]), Reply::Refused(2));
    let over = [&[65], &most[1..]].concat();
    assert_eq!(word(&over), Reply::Refused(2));
}

#[test]
fn open_refuses_numbers_out_of_range() {
    for (n, own) in [(0, 0), (33, 0), (1, 1), (32, 32), (255, 0), (4, 200)] {
        assert_eq!(Bench::open(n, own).err(), Some(7));
    }
    assert!(Bench::open(1, 0).is_ok() && Bench::open(32, 31).is_ok());
}

#[test]
fn calls_out_of_order_are_refused() {
    let calls = [
        begin(4),
        begin(4),
        begin(3),
        act(),
        act(),
        vote(0, 0, &[5]),
        begin(LAST_BEAT + 1),
        begin(LAST_BEAT),
    ];
    let numbers: Vec<u8> = run(1, 0, &calls)
        .1
        .iter()
        .map(|reply| if let Reply::Refused(number) = reply { *number } else { 0 })
        .collect();
    assert_eq!(numbers, [0, 20, 20, 0, 22, 22, 10, 0]);
    assert_eq!(run(1, 0, &[act()]).1, [Reply::Refused(22)], "no beat begun");
    assert_eq!(run(1, 0, &[begin(u32::MAX)]).1, [Reply::Refused(10)]);
}

#[test]
fn the_first_refusal_of_receive_is_given() {
    let (_, replies) = run(
        2,
        0,
        &[
            Call::Receive(vec![]),
            begin(9),
            vote(LAST_VIEW + 1, 1, &[5]),
            vote(0, 1, &[0]),
        ],
    );
    assert_eq!(replies[0], Reply::Refused(22), "rubbish outside a gathering");
    assert_eq!(replies[2], Reply::Refused(5), "and not 21");
    assert_eq!(replies[3], Reply::Refused(6), "a zero name in a shut window");
}

#[test]
fn a_refused_begin_leaves_the_gathering() {
    let calls = [
        begin(5),
        begin(5),
        vote(1, 1, &[5]),
        begin(LAST_BEAT + 1),
        vote(1, 1, &[5]),
        begin(2),
        act(),
    ];
    let (bench, replies) = run(2, 0, &calls);
    assert_eq!(replies[2], Reply::Took(Word::First));
    assert_eq!(replies[4], Reply::Took(Word::Known));
    assert_eq!(replies[6], Reply::Acted(None));
    assert!(bench.is_awake_at(5) && !bench.is_awake_at(2) && bench.beat() == Some(5));
}

#[test]
fn first_second_and_known() {
    let words = |calls: &[Call]| -> Vec<Reply> { run(2, 0, calls).1[1..].to_vec() };
    let [first, second, known] = [Word::First, Word::Second, Word::Known].map(Reply::Took);
    let (a, b, c) = (vote(0, 1, &[5]), vote(0, 1, &[6]), vote(0, 1, &[7]));
    let heard = words(&[begin(1), a.clone(), a.clone(), b.clone(), a, b, c]);
    assert_eq!(heard, [&first, &known, &second, &known, &known, &known].map(Clone::clone));
    let (p, q, r) = (propose(0, 1, 7, &[5]), propose(0, 1, 8, &[5]), propose(0, 1, 7, &[6]));
    let heard = words(&[begin(0), p.clone(), p.clone(), q, r, p]);
    assert_eq!(heard, [&first, &known, &second, &known, &known].map(Clone::clone));
}

#[test]
fn own_messages_are_filed_by_the_receive_rules() {
    let forged = [begin(0), propose(0, 0, 1, &[8]), offer(5, 9), begin(1), act()];
    let (_, replies) = run(1, 0, &forged);
    assert!(
        matches!(&replies[2], Reply::Acted(Some(message)) if message.log == log(&[5])),
        "made all the same"
    );
    assert_eq!(made(&replies), Some(vec![]), "the own proposal is set aside");
    let (_, replies) = run(
        1,
        0,
        &[
            begin(1),
            vote(0, 0, &[8]),
            act(),
            vote(0, 0, &[8]),
            begin(2),
            vote(0, 0, &[]),
            begin(4),
            offer(5, 9),
        ],
    );
    assert!(matches!(&replies[2], Reply::Acted(Some(_))));
    assert_eq!(replies[5], Reply::Took(Word::Known));
    assert_eq!(made(&replies), None, "it stands in its own E");
    let (_, replies) = run(1, 0, &[begin(1), vote(0, 0, &[]), act(), begin(4), offer(5, 9)]);
    assert_eq!(made(&replies), Some(log(&[5])), "a forged one alike is the same again");
}

#[test]
fn a_block_is_used_at_4v_only() {
    let calls: Vec<Call> = (0..=3)
        .flat_map(|beat| [begin(beat), offer(if beat == 0 { 0 } else { 5 }, 9)])
        .collect();
    let (_, replies) = run(1, 0, &calls);
    assert_eq!(replies[1], Reply::Acted(None));
    assert!(matches!(&replies[3], Reply::Acted(Some(message)) if message.kind == Kind::Log && message.log.is_empty()));
    assert_eq!((&replies[5], &replies[7]), (&Reply::Acted(None), &Reply::Acted(None)));
}

#[test]
fn beginning_alone_takes_no_snapshot_and_is_not_awake() {
    let calls = [
        begin(1),
        act(),
        begin(2),
        begin(3),
        begin(4),
        begin(5),
        act(),
        begin(6),
        act(),
    ];
    let (bench, replies) = run(1, 0, &calls);
    assert_eq!((&replies[6], &replies[8]), (&Reply::Acted(None), &Reply::Acted(None)));
    assert!(bench.decisions().is_empty());
    assert!(bench.is_awake_at(1) && !bench.is_awake_at(2) && !bench.is_awake_at(4) && bench.is_awake_at(6));
}

#[test]
fn a_snapshot_of_nobody_gives_no_grade() {
    assert_eq!(grade_1(&[], &[votes(&[&[5]])]), None);
    assert_eq!(grade_2(&[], &[votes(&[&[5]])]), None);
}

#[test]
fn the_last_decision_and_nothing_else_after_the_last_view() {
    let from = 4 * LAST_VIEW;
    let early = [begin(from - 1), vote(LAST_VIEW - 1, 0, &[5]), act()];
    let late = (from..=LAST_BEAT).flat_map(|beat| [begin(beat), offer(6, 9)]);
    let (bench, replies) = run(1, 0, &[&early[..], &late.collect::<Vec<_>>()].concat());
    let kinds: Vec<Option<Kind>> = replies[3..]
        .iter()
        .filter_map(|reply| {
            if let Reply::Acted(made) = reply {
                Some(made.as_ref().map(|message| message.kind))
            } else {
                None
            }
        })
        .collect();
    assert_eq!(kinds, [Some(Kind::Proposal), Some(Kind::Log), None, None, None, None, None]);
    assert_eq!(bench.decisions(), [(LAST_BEAT, log(&[5, 6]))]);
    assert_eq!(
        run(1, 0, &[begin(LAST_BEAT), vote(LAST_VIEW, 0, &[5])]).1[1],
        Reply::Took(Word::First)
    );
}

/// Decides each log in turn, heard from benches 0 and 1 of 8. The act of 4v+6 is that of 4(v+1)+2 too, so that views two apart
/// keep the lists simple.
fn decide(logs: &[&[u64]]) -> Bench {
    let one_view = |(view, names): (u32, &&[u64])| {
        let heard = [vote(view, 0, names), vote(view, 1, names)];
        [&[begin(4 * view + 2)][..], &heard, &[act(), begin(4 * view + 6), act()]].concat()
    };
    let calls: Vec<Call> = (0..).step_by(2).zip(logs).flat_map(one_view).collect();
    run(8, 7, &calls).0
}

#[test]
fn decisions_extend_repeat_or_part() {
    let bench = decide(&[&[5, 6], &[5], &[5, 6], &[5, 6, 7]]);
    assert_eq!(
        (bench.decided(), bench.parted(), bench.decisions().len()),
        (log(&[5, 6, 7]), false, 4)
    );
    let bench = decide(&[&[5, 6], &[5, 7], &[], &[5, 6, 8]]);
    assert_eq!(
        (bench.decided(), bench.parted()),
        (log(&[5, 6, 8]), true),
        "decided again after the mark, never unset"
    );
    assert_eq!(
        bench.decisions().iter().map(|(beat, _)| *beat).collect::<Vec<_>>(),
        [6, 14, 22, 30]
    );
}

#[test]
fn entries_are_looked_up_in_what_stands() {
    let found = |logs: &[&[u64]]| [0, 1, 2, 3].map(|entry| decide(logs).find(entry).map(|found| found.block));
    let one_and_two = [Ok(0), Ok(1), Err(23), Err(23)];
    assert_eq!(found(&[]), [Err(23); 4], "nothing is decided");
    assert_eq!(found(&[&[]]), [Err(23); 4], "the empty log is decided");
    assert_eq!(found(&[&[5, 6]]), one_and_two);
    assert_eq!(found(&[&[5, 6], &[5]]), one_and_two, "a prefix changes nothing");
    assert_eq!(found(&[&[5, 6], &[5, 7, 8]]), one_and_two, "nor does a conflict");
    assert_eq!(found(&[&[5, 6], &[5, 7, 8], &[5, 6, 9]]), [Ok(0), Ok(1), Ok(2), Err(23)]);
}

#[test]
fn an_entry_is_looked_up_at_any_time() {
    let (bench, _) = run(1, 0, &[]);
    assert_eq!(bench.find(0), Err(23), "no beat begun");
    let calls: Vec<Call> = (0..=7)
        .flat_map(|beat| [begin(beat), offer(if beat == 0 { 5 } else { 0 }, 9)])
        .collect();
    let found = |calls: &[Call]| run(1, 0, calls).0.find(0);
    let first = Ok(Found { block: 0, inside: 0 });
    assert_eq!(
        (found(&calls[..13]), found(&calls[..14])),
        (Err(23), first),
        "before and after the act"
    );
    assert_eq!(
        (found(&calls[..15]), found(&calls)),
        (first, first),
        "in a gathering, and after it"
    );
}

#[test]
fn two_views_are_decided_one_on_the_other_with_their_counts() {
    let block = |name, count| Block { name, count };
    let mut bench = Bench::open(1, 0).unwrap();
    for beat in 0..=10 {
        bench.call(&begin(beat));
        let offered = if beat == 0 { block(5, 3) } else { block(6, 0) };
        bench.call(&Call::Act {
            block: if beat % 4 == 0 && beat < 8 { offered } else { block(0, 0) },
            priority: 9,
        });
    }
    assert_eq!(
        bench.decisions(),
        [(6, vec![block(5, 3)]), (10, vec![block(5, 3), block(6, 0)])]
    );
    assert_eq!(bench.find(2), Ok(Found { block: 0, inside: 2 }));
    assert_eq!(bench.find(3), Err(23), "the second block holds none");
}

#[test]
fn no_proposal_on_a_log_of_64_blocks() {
    let names: Vec<u64> = (1..=64).collect();
    assert_eq!(grade_0(&[votes(&[&names[..63]])]), Some(log(&names[..63])));
    let (_, replies) = run(8, 7, &[begin(1), vote(0, 0, &names), begin(4), offer(99, 1)]);
    assert_eq!(last(&replies), &Reply::Acted(None));
}

#[test]
fn each_mistake_in_counting_shows() {
    let grade = |rules, heard: &[Vec<Call>]| {
        made(
            &run_under(
                rules,
                8,
                7,
                &[vec![begin(1)], heard.concat(), vec![begin(4), offer(99, 1)]].concat(),
            )
            .1,
        )
    };
    let half = [votes(&[&[5], &[5]]), equivocate(2), equivocate(3)];
    assert_eq!(grade(Rules::Paper, &half), None);
    assert_eq!(grade(Rules::EquivocatorsUnheard, &half), Some(log(&[5, 99])));
    assert_eq!(grade(Rules::HalfIsEnough, &half), Some(log(&[5, 99])));
    let few = [votes(&[&[5], &[5], &[5]])];
    assert_eq!(
        (grade(Rules::Paper, &few), grade(Rules::MajorityOfAll, &few)),
        (Some(log(&[5, 99])), None)
    );
    let since = (&[votes(&[&[5], &[5]])], &[equivocate(1)]);
    assert_eq!(grade_1_under(Rules::Paper, since.0, since.1), None);
    assert_eq!(grade_1_under(Rules::SnapshotJudges, since.0, since.1), Some(log(&[5])));
    assert_eq!(
        grade_1_under(Rules::SnapshotsSwapped, &few, &[]),
        None,
        "snapshot one was not taken"
    );
}
