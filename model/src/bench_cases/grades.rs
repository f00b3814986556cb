//! Acts that read grades 0, 1 and 2 of agreements of 32 senders of 64 blocks each.
use super::events::Events;
use super::{long_log, ActsCase, Case};
use crate::record::{log_bytes, Block, MOST_SENDERS};

/// Every other view is gathered for: the bench's own vote of a view between stands in the other slot and disturbs none.
const VIEWS: [u32; 3] = [0, 2, 4];

/// A block is offered so that the proposing act looks for its candidate.
const OFFERED: Block = Block { name: 9, count: 1 };

/// All 32 LOGs of the view, and both its snapshots. The bench does not vote itself: its LOG is among the 32.
fn gather(events: &mut Events, view: u32, log_of: fn(u8) -> [Block; 64]) {
    events.begin(4 * view + 1);
    for sender in 0..MOST_SENDERS as u8 {
        events.receive(&log_bytes(sender, view, &log_of(sender)));
    }
    for snapshot in 2..=3 {
        events.begin(4 * view + snapshot);
        events.act_alone();
    }
}

/// The beats of grades 0, 1 and 2, with their acts or without.
fn read_grades(events: &mut Events, view: u32, acting: bool) {
    for grade in 0..=2 {
        events.begin(4 * view + 4 + grade);
        if acting {
            events.act(OFFERED, 1);
        }
    }
}

fn roll_of(name: &'static str, log_of: fn(u8) -> [Block; 64], acting: bool) -> Case {
    let mut events = Events::new();
    for view in VIEWS {
        gather(&mut events, view, log_of);
        read_grades(&mut events, view, acting);
    }
    Case {
        name,
        roll: events.roll(32, 0),
        events: events.count(),
    }
}

fn case(name: &'static str, log_of: fn(u8) -> [Block; 64]) -> ActsCase {
    ActsCase {
        with: roll_of(name, log_of, true),
        without: roll_of(name, log_of, false),
        acts: 3 * VIEWS.len(),
    }
}

/// The log of each sender is the long one with the block at one place its own.
fn differing_at(place: usize, sender: u8) -> [Block; 64] {
    let mut log = long_log();
    log[place].name = 1 + sender as u64;
    log
}

pub fn alike() -> ActsCase {
    case("act, 32 logs alike", |_| long_log())
}

pub fn first_block_differs() -> ActsCase {
    case("act, 32 logs, first block differs", |sender| differing_at(0, sender))
}

/// The worst case: any two logs are compared to the end, and no two are alike.
pub fn last_block_differs() -> ActsCase {
    case("act, 32 logs, last block differs", |sender| differing_at(63, sender))
}

#[cfg(test)]
mod tests {
    use super::super::{count, lines_of};
    use super::*;

    /// The lines of the acts at the beats of the view's grades.
    fn graded(case: &ActsCase, view: u32) -> Vec<String> {
        let lines = lines_of(&case.with);
        let after = |beat: u32| 1 + lines.iter().position(|line| *line == format!("begin {beat} ok")).unwrap();
        (4..=6).map(|place| lines[after(4 * view + place)].clone()).collect()
    }

    #[test]
    fn every_log_is_first_and_only_the_acts_differ() {
        for case in rolls_of() {
            let (with, without) = (lines_of(&case.with), lines_of(&case.without));
            assert_eq!((count(&with, "take first"), count(&without, "take first")), (96, 96));
            assert_eq!(with.len() - without.len(), case.acts);
        }
    }

    fn rolls_of() -> [ActsCase; 3] {
        [alike(), first_block_differs(), last_block_differs()]
    }

    #[test]
    fn logs_alike_have_every_grade_whole() {
        for view in VIEWS {
            let decided = if view == 0 { 0 } else { 64 };
            let expected = [
                format!("act none 0 {decided}"),
                format!("act log 64 {decided}"),
                "act none 0 64".into(),
            ];
            assert_eq!(graded(&alike(), view), expected);
        }
    }

    #[test]
    fn logs_unlike_at_once_have_the_grades_empty() {
        assert_eq!(
            graded(&first_block_differs(), 0),
            ["act proposal 1 0", "act log 1 0", "act none 0 0"]
        );
    }

    #[test]
    fn logs_unlike_at_the_end_have_the_grades_but_for_the_last_block() {
        assert_eq!(
            graded(&last_block_differs(), 0),
            ["act proposal 64 0", "act log 64 0", "act none 0 63"]
        );
    }
}
