//! Receives of LOGs of 64 blocks, as many as a roll holds.
use super::events::Events;
use super::{long_log, Case};
use crate::record::{log_bytes, MOST_BYTES, MOST_SENDERS};

/// Each LOG the first of its sender: views one after another, all 32 senders of each.
pub fn first() -> Case {
    let mut events = Events::new();
    for view in 0.. {
        events.begin(4 * view + 1);
        for sender in 0..MOST_SENDERS as u8 {
            if !events.has_room(MOST_BYTES) {
                return Case {
                    name: "receive, 64 blocks, first",
                    roll: events.roll(32, 0),
                    events: events.count(),
                };
            }
            events.receive(&log_bytes(sender, view, &long_log()));
        }
    }
    unreachable!("a roll has an end")
}

/// One LOG, then the same again: each time the whole log is compared.
pub fn known() -> Case {
    let mut events = Events::new();
    events.begin(1);
    while events.has_room(MOST_BYTES) {
        events.receive(&log_bytes(7, 0, &long_log()));
    }
    Case {
        name: "receive, 64 blocks, known",
        roll: events.roll(32, 0),
        events: events.count(),
    }
}

#[cfg(test)]
mod tests {
    use super::super::{count, lines_of};
    use super::*;

    #[test]
    fn all_but_the_begins_are_first() {
        let case = first();
        let lines = lines_of(&case);
        assert_eq!((case.events, count(&lines, "take first")), (103, 99));
        assert_eq!(
            lines
                .iter()
                .filter(|line| line.starts_with("begin ") && line.ends_with(" ok"))
                .count(),
            4
        );
    }

    #[test]
    fn all_but_one_are_known() {
        let case = known();
        let lines = lines_of(&case);
        assert_eq!(
            (case.events, count(&lines, "take first"), count(&lines, "take known")),
            (100, 1, 98)
        );
    }
}
