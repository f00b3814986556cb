//! The three premises of demand 3, judged from the lists alone (document 01, Calendar of acts, from "In demand 3" on).
use super::reading::{log_window_is_open, Reading, Sent};
use crate::history::message::LAST_VIEW;
use std::collections::HashMap;
use std::fmt;

#[derive(Clone, Copy, PartialEq, Eq, Debug)]
pub enum Premise {
    Delivery,
    Numbers,
    Majority,
}

/// One place where a premise fails.
#[derive(Clone, PartialEq, Eq, Debug)]
pub enum Breach {
    /// What `from` made or passed on at `beat` was not with `to` before it acted at `due`.
    Delivery {
        from: u8,
        beat: u32,
        to: u8,
        due: u32,
        view: u32,
    },
    /// `taker` took a LOG under the number of a rule-keeper that never made it.
    Numbers { taker: u8, beat: u32, number: u8, view: u32 },
    /// Too few rule-keepers awake at both beats.
    Majority { view: u32, awake: Vec<u8>, breakers: usize },
}

impl Breach {
    pub fn premise(&self) -> Premise {
        match self {
            Breach::Delivery { .. } => Premise::Delivery,
            Breach::Numbers { .. } => Premise::Numbers,
            Breach::Majority { .. } => Premise::Majority,
        }
    }
}

impl fmt::Display for Breach {
    fn fmt(&self, out: &mut fmt::Formatter) -> fmt::Result {
        match self {
            Breach::Delivery {
                from,
                beat,
                to,
                due,
                view,
            } => {
                write!(
                    out,
                    "delivery: view {view} LOG sent by bench {from} at beat {beat} not with bench {to} by its act at {due}"
                )
            }
            Breach::Numbers {
                taker,
                beat,
                number,
                view,
            } => {
                write!(
                    out,
                    "numbers: view {view} LOG under bench {number}'s number, not its own, taken by {taker} at beat {beat}"
                )
            }
            Breach::Majority { view, awake, breakers } => {
                let numbers: Vec<String> = awake.iter().map(u8::to_string).collect();
                let numbers = numbers.join(",");
                let who = if *breakers == 1 { "rule-breaker" } else { "rule-breakers" };
                write!(
                    out,
                    "majority: in view {view} the rule-keepers that count are {{{numbers}}}, too few against {breakers} {who}"
                )
            }
        }
    }
}

/// Every breach of the premises in these lists of the rule-keepers among `n` benches.
pub fn breaches(n: u8, lists: &[Reading]) -> Vec<Breach> {
    let mut found = vec![];
    for from in lists {
        for to in lists.iter().filter(|to| to.own != from.own) {
            found.extend(from.sent.iter().filter_map(|sent| undelivered(from, sent, to)));
        }
    }
    found.extend(forged(lists));
    found.extend(outnumbered(n, lists));
    found
}

/// Passing on in a beat that is not acted in counts; a bench is owed no LOG under its own number, whoever made that one.
fn undelivered(from: &Reading, sent: &Sent, to: &Reading) -> Option<Breach> {
    let due = missed(sent, to).filter(|_| sent.sender != to.own)?;
    Some(Breach::Delivery {
        from: from.own,
        beat: sent.beat,
        to: to.own,
        due,
        view: sent.view,
    })
}

/// The first beat after the sending in which the bench is awake, if the LOG is not with it by its act then; where the window has
/// passed by that beat, it misses nothing.
fn missed(sent: &Sent, to: &Reading) -> Option<u32> {
    let due = to.first_awake_after(sent.beat)?;
    let is_with = to.with.get(&sent.bytes).is_some_and(|&beat| beat <= due);
    (log_window_is_open(sent.view, due) && !is_with).then_some(due)
}

/// Whether some bench misses a LOG under its own number that it never made: no breach, for it is not owed that one.
pub fn own_missed(lists: &[Reading]) -> bool {
    let forged = |sent: &Sent, to: &Reading| sent.sender == to.own && !to.made.contains(&sent.bytes);
    let misses = |to: &Reading, from: &Reading| from.sent.iter().any(|sent| forged(sent, to) && missed(sent, to).is_some());
    lists
        .iter()
        .any(|to| lists.iter().any(|from| from.own != to.own && misses(to, from)))
}

/// LOGs taken under a rule-keeper's number that it made at no place of its list; the taker may be that very bench.
fn forged(lists: &[Reading]) -> Vec<Breach> {
    let holders: HashMap<u8, &Reading> = lists.iter().map(|list| (list.own, list)).collect();
    let mut found = vec![];
    for list in lists {
        for taken in &list.taken {
            let number = taken.message.sender;
            if holders.get(&number).is_some_and(|holder| !holder.made.contains(&taken.bytes)) {
                found.push(Breach::Numbers {
                    taker: list.own,
                    beat: taken.beat,
                    number,
                    view: taken.message.view,
                });
            }
        }
    }
    found
}

fn outnumbered(n: u8, lists: &[Reading]) -> Vec<Breach> {
    let breakers = usize::from(n) - lists.len();
    let few = counted(lists).into_iter().filter(|(_, awake)| awake.len() <= breakers);
    few.map(|(view, awake)| Breach::Majority { view, awake, breakers }).collect()
}

/// The rule-keepers awake at both beats that the majority premise looks at, for each view up to the last of which a rule-keeper
/// begins any beat; the beats past the last view's belong to none.
pub fn counted(lists: &[Reading]) -> Vec<(u32, Vec<u8>)> {
    let begun = lists.iter().flat_map(|list| &list.begun);
    let Some(last) = begun.map(|beat| beat / 4).filter(|view| *view <= LAST_VIEW).max() else {
        return vec![];
    };
    let awake = |view: u32| {
        let before = |list: &&Reading| view == 0 || list.awake.contains(&(4 * view - 1));
        let both = lists
            .iter()
            .filter(before)
            .filter(|list| list.awake.contains(&(4 * view + 1)));
        both.map(|list| list.own).collect::<Vec<u8>>()
    };
    (0..=last).map(|view| (view, awake(view))).collect()
}

#[cfg(test)]
mod tests {
    use super::*;
    use crate::history::bench::{Call, Rules};
    use crate::volume::benches::NO_BLOCK;
    use crate::volume::keeper::Keeper;
    use crate::volume::messages::vote;

    const ACT: Call = Call::Act {
        block: NO_BLOCK,
        priority: 0,
    };

    /// The calls of a bench: awake at each beat that is listed.
    fn awake(beats: &[u32]) -> Vec<Call> {
        beats.iter().flat_map(|&beat| [Call::Begin(beat), ACT]).collect()
    }

    /// Rule-keeper `own` of two, or of three with a rule-breaker.
    fn keeper(n: u8, own: u8, calls: &[Call]) -> Keeper {
        let mut keeper = Keeper::open(Rules::Paper, n, own);
        calls.iter().for_each(|call| drop(keeper.call(call.clone())));
        keeper
    }

    fn found(n: u8, keepers: &[Keeper], premise: Premise) -> Vec<Breach> {
        let lists: Vec<Reading> = keepers.iter().map(Reading::of).collect();
        let mut found = breaches(n, &lists);
        found.retain(|breach| breach.premise() == premise);
        found
    }

    /// The breaches of delivery where bench 0 votes for the empty log at beat 1 and sleeps, and bench 1 makes these calls.
    fn undelivered_to(calls: &[Call]) -> Vec<Breach> {
        found(2, &[keeper(2, 0, &awake(&[1])), keeper(2, 1, calls)], Premise::Delivery)
    }

    fn hand(sender: u8, names: &[u64]) -> Call {
        let log = names.iter().map(|&name| crate::history::message::Block { name, count: 1 });
        Call::Receive(vote(sender, 0, log.collect()).write())
    }

    fn late(to: u8, due: u32) -> Breach {
        let (from, beat, view) = (0, 1, 0);
        Breach::Delivery {
            from,
            beat,
            to,
            due,
            view,
        }
    }

    #[test]
    fn a_log_is_owed_before_the_first_act_after_its_beat() {
        let log = || hand(0, &[]);
        assert_eq!(undelivered_to(&awake(&[1, 2])), [late(1, 2)]);
        assert_eq!(undelivered_to(&[Call::Begin(2), log(), ACT]), []);
        assert_eq!(
            undelivered_to(&[Call::Begin(2), ACT, Call::Begin(3), log(), ACT]),
            [late(1, 2)]
        );
        assert_eq!(
            undelivered_to(&[Call::Begin(1), log(), Call::Begin(4), ACT]),
            [],
            "with it before, in a beat not acted in"
        );
        assert_eq!(
            undelivered_to(&[log(), Call::Begin(2), ACT]),
            [late(1, 2)],
            "handed outside a gathering"
        );
        assert_eq!(undelivered_to(&[Call::Begin(2), log()]), [], "not awake after");
        assert_eq!(undelivered_to(&awake(&[6])), [late(1, 6)]);
        assert_eq!(undelivered_to(&awake(&[7])), [], "the window has passed");
    }

    #[test]
    fn what_is_passed_on_in_a_beat_not_acted_in_is_owed() {
        let passes_on = keeper(3, 0, &[Call::Begin(1), hand(2, &[5])]);
        let told_again = keeper(3, 1, &[Call::Begin(2), hand(2, &[5]), ACT]);
        let other_story = keeper(3, 1, &[Call::Begin(2), hand(2, &[6]), ACT]);
        assert_eq!(found(3, &[passes_on, told_again], Premise::Delivery), []);
        let passes_on = keeper(3, 0, &[Call::Begin(1), hand(2, &[5])]);
        assert_eq!(found(3, &[passes_on, other_story], Premise::Delivery), [late(1, 2)]);
    }

    /// Rule-breaker 2 forges a LOG of bench 1, which bench 0 passes on; bench 1 is told of it or not.
    #[test]
    fn a_log_under_a_benchs_own_number_is_not_owed_to_it() {
        let (taker, beat, number, view) = (0, 1, 1, 0);
        let taken_by = |taker, beat| Breach::Numbers {
            taker,
            beat,
            number,
            view,
        };
        let passes_on = || keeper(3, 0, &[Call::Begin(1), hand(1, &[5])]);
        let untold = || [passes_on(), keeper(3, 1, &awake(&[1, 2]))];
        assert_eq!(found(3, &untold(), Premise::Delivery), []);
        assert_eq!(found(3, &untold(), Premise::Numbers), [taken_by(taker, beat)]);
        let told = || keeper(3, 1, &[awake(&[1]), vec![Call::Begin(2), hand(1, &[5]), ACT]].concat());
        assert_eq!(found(3, &[passes_on(), told()], Premise::Delivery), []);
        assert_eq!(
            found(3, &[passes_on(), told()], Premise::Numbers),
            [taken_by(taker, beat), taken_by(1, 2)]
        );
        let another = [keeper(3, 0, &[Call::Begin(1), hand(2, &[5])]), keeper(3, 1, &awake(&[1, 2]))];
        assert_eq!(
            found(3, &another, Premise::Delivery),
            [late(1, 2)],
            "one under another number is owed"
        );
    }

    #[test]
    fn a_log_under_a_rule_keepers_number_is_one_it_made() {
        let (view, number) = (0, 0);
        let takes = |names: &[u64]| {
            let takers = [keeper(2, 0, &awake(&[1])), keeper(2, 1, &[Call::Begin(1), hand(0, names)])];
            found(2, &takers, Premise::Numbers)
        };
        assert_eq!(takes(&[]), [], "made at whatever place of its list");
        let (taker, beat) = (1, 1);
        assert_eq!(
            takes(&[5]),
            [Breach::Numbers {
                taker,
                beat,
                number,
                view
            }]
        );
        let (taker, beat) = (0, 2);
        let itself = keeper(2, 0, &[awake(&[1]), vec![Call::Begin(2), hand(0, &[5])]].concat());
        assert_eq!(
            found(2, &[itself], Premise::Numbers),
            [Breach::Numbers {
                taker,
                beat,
                number,
                view
            }]
        );
    }

    #[test]
    fn the_majority_is_asked_for_once_a_views_first_beat_begins() {
        let asked = |calls: &[Call]| found(1, &[keeper(1, 0, calls)], Premise::Majority).len();
        assert_eq!(asked(&[]), 0);
        assert_eq!(asked(&[Call::Begin(0)]), 1);
        assert_eq!(asked(&awake(&[1, 3])), 0);
        assert_eq!(asked(&[awake(&[1, 3]), vec![Call::Begin(4)]].concat()), 1);
        assert_eq!(asked(&awake(&[1, 3, 4, 5])), 0);
        assert_eq!(asked(&awake(&[1, 2, 5])), 1, "awake at 5 and not at 3");
        assert_eq!(asked(&[Call::Begin(4_000_004)]), 0, "a beat of no view");
        assert_eq!(asked(&awake(&[1, 4_000_006])), 0, "up to view 0 alone");
        assert_eq!(asked(&awake(&[1, 4_000_003])), 1_000_000, "up to the last view");
        assert_eq!(
            found(2, &[keeper(2, 0, &awake(&[1]))], Premise::Majority).len(),
            1,
            "one against one"
        );
    }
}
