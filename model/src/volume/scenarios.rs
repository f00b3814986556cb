//! Small hand-made volumes: one for each mistake, in which benches that make it decide conflicting logs under all three
//! premises, and one for each premise, in which benches by the paper's rules do so without it.
//!
//! Rule-keepers bear the lowest numbers. View 0 votes at beat 1 and decides at beat 6, view 1 votes at 5 and decides at 10,
//! view 2 votes at 9 and decides at 14. Logs are shown by the names of their blocks.
use super::premises::Premise;
use super::scenario::{proposal, vote, Scenario};
use crate::history::bench::Rules;

/// One scenario for each of the six mistakes; all premises hold in each.
pub fn mistakes() -> Vec<Scenario> {
    vec![
        equivocators_unheard(),
        majority_of_all(),
        half_is_enough(),
        snapshots_swapped(),
        snapshot_judges(),
        vote_without_lock(),
    ]
}

/// One scenario for each premise, which alone fails in it.
pub fn dropped_premises() -> Vec<Scenario> {
    vec![one_log_withheld(), one_log_forged(), one_bench_asleep()]
}

/// Benches 0 and 1 vote [5], bench 2 votes [6]. Rule-breakers 3 and 4 vote [6], and at beat 6 tell bench 0 alone a second
/// story. Left out of S there, they leave bench 0 two of three for [5], while the others have three of five for [6].
fn equivocators_unheard() -> Scenario {
    let mut scenario = Scenario::new(Rules::EquivocatorsUnheard, None, 5, 3, 6);
    scenario.tells = vec![proposal(1, &[0, 1], 3, 0, &[5]), proposal(1, &[2], 3, 0, &[6])];
    scenario
        .tells
        .extend([3, 4].map(|breaker| vote(2, &[0, 1, 2], breaker, 0, &[6])));
    scenario.tells.extend([3, 4].map(|breaker| vote(6, &[0], breaker, 0, &[5])));
    scenario
}

/// All vote [5] and decide it. In view 1 bench 2 sleeps: [5] has two of three senders and not a majority of four, the empty
/// log has three. The lock falls back to it, and the rule-breaker's [8] is voted for and decided.
fn majority_of_all() -> Scenario {
    let mut scenario = Scenario::new(Rules::MajorityOfAll, None, 4, 3, 14);
    scenario.asleep = vec![(2, 5)];
    scenario.tells = vec![
        proposal(1, &[0, 1, 2], 3, 0, &[5]),
        vote(6, &[0, 1, 2], 3, 1, &[]),
        proposal(9, &[0, 1, 2], 3, 2, &[8]),
    ];
    scenario
}

/// Benches 0 and 1 vote [5], bench 2 votes [6, 7]. The rule-breaker votes [6, 7] after snapshot one: half is for [5] at grade
/// 2, and at grade 1 for [6, 7] too, the longer, which all lock and decide a view later.
fn half_is_enough() -> Scenario {
    let mut scenario = Scenario::new(Rules::HalfIsEnough, None, 4, 3, 10);
    scenario.tells = vec![
        proposal(1, &[0, 1], 3, 0, &[5]),
        proposal(1, &[2], 3, 0, &[6, 7]),
        vote(3, &[0, 1, 2], 3, 0, &[6, 7]),
    ];
    scenario
}

/// Benches 0 and 1 vote [5], bench 2 votes [6]. The rule-breaker votes [5] after snapshot one. Read with snapshot two, [5] is
/// decided at beat 6; read with snapshot one, the lock at beat 5 is the empty log, and all vote [8].
fn snapshots_swapped() -> Scenario {
    let mut scenario = Scenario::new(Rules::SnapshotsSwapped, None, 4, 3, 10);
    scenario.tells = vec![
        proposal(1, &[0, 1], 3, 0, &[5]),
        proposal(1, &[2], 3, 0, &[6]),
        vote(3, &[0, 1, 2], 3, 0, &[5]),
        proposal(5, &[0, 1, 2], 3, 1, &[8]),
    ];
    scenario
}

/// Benches 0 and 1 vote [5], bench 2 votes [6]. The rule-breaker's [5] is in bench 0's snapshot one alone; at beat 3 it tells
/// all a second story. Bench 0 still counts it and decides [5]; nobody's snapshot two has it, so all lock the empty log and
/// vote [8].
fn snapshot_judges() -> Scenario {
    let mut scenario = Scenario::new(Rules::SnapshotJudges, None, 4, 3, 10);
    scenario.tells = vec![
        proposal(1, &[0, 1], 3, 0, &[5]),
        proposal(1, &[2], 3, 0, &[6]),
        vote(2, &[0], 3, 0, &[5]),
        vote(3, &[0, 1, 2], 3, 0, &[6]),
        proposal(5, &[0, 1, 2], 3, 1, &[8]),
    ];
    scenario
}

/// All vote [5] and decide it at beat 6, having voted at beat 5 for [8] against their lock; [8] is decided at beat 10.
fn vote_without_lock() -> Scenario {
    let mut scenario = Scenario::new(Rules::VoteWithoutLock, None, 3, 2, 10);
    scenario.tells = vec![proposal(1, &[0, 1], 2, 0, &[5]), proposal(5, &[0, 1], 2, 1, &[8])];
    scenario
}

/// Two benches, both keeping the rules. Bench 0's vote [5] never reaches bench 1, which hears itself alone and decides [6].
/// Bench 0 heard both and locks the empty log; from view 1 on both do, and bench 0's [8], told to both, is decided.
fn one_log_withheld() -> Scenario {
    let mut scenario = Scenario::new(Rules::Paper, Some(Premise::Delivery), 2, 2, 14);
    scenario.offers = vec![(0, 0, 5), (1, 0, 6), (0, 4, 7), (0, 8, 8)];
    scenario.withheld = vec![(1, 0, 0)];
    scenario.tells = vec![proposal(9, &[1], 0, 2, &[8])];
    scenario
}

/// Both vote [5] and decide it. In view 1 one LOG forged under bench 1's number makes it an equivocator: [5] has one of three
/// senders left, the empty log two with the rule-breaker's. The lock falls back, and [8] is decided.
fn one_log_forged() -> Scenario {
    let mut scenario = Scenario::new(Rules::Paper, Some(Premise::Numbers), 3, 2, 14);
    scenario.tells = vec![
        proposal(1, &[0, 1], 2, 0, &[5]),
        vote(6, &[0, 1], 2, 1, &[]),
        proposal(9, &[0, 1], 2, 2, &[8]),
    ];
    scenario.forged = vec![vote(6, &[0], 1, 1, &[])];
    scenario
}

/// Both vote [5] and decide it. In view 1 bench 1 sleeps at the vote: one rule-keeper against one rule-breaker, and [5] has
/// half. The lock falls back to the empty log, and [8] is decided.
fn one_bench_asleep() -> Scenario {
    let mut scenario = Scenario::new(Rules::Paper, Some(Premise::Majority), 3, 2, 14);
    scenario.asleep = vec![(1, 5)];
    scenario.tells = vec![
        proposal(1, &[0, 1], 2, 0, &[5]),
        vote(6, &[0, 1], 2, 1, &[]),
        proposal(9, &[0, 1], 2, 2, &[8]),
    ];
    scenario
}
