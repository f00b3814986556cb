//! Rolls in which nothing is done: refused calls, for the fixed cost of a call, and a roll of the wrong form.
use super::events::Events;
use super::Case;
use crate::record::{log_bytes, LAST_BEAT};

/// 1,024 calls of a bench that has begun no beat: each is refused, after the record was tested for 9 and the lists for 8.
pub fn refused_calls() -> Case {
    let mut events = Events::new();
    while events.count() < 1_024 {
        match events.count() % 3 {
            0 => events.begin(LAST_BEAT + 1),
            1 => events.receive(&log_bytes(0, 0, &[])),
            _ => events.act_alone(),
        }
    }
    Case {
        name: "1,024 refused calls",
        roll: events.roll(32, 0),
        events: 1_024,
    }
}

/// A roll of 65,536 bytes and 1,024 events whose last byte belongs to no body: each mark is looked at before that is known.
pub fn damaged() -> Case {
    let mut events = Events::new();
    let mut bytes_left = 65_535 - 4 - 4 * 1_024;
    for events_left in (1..=1_024).rev() {
        let length = bytes_left / events_left;
        events.receive(&vec![0; length]);
        bytes_left -= length;
    }
    let mut roll = events.roll(32, 0);
    roll.push(0);
    Case {
        name: "roll ? for 65,536 bytes",
        roll,
        events: 1_024,
    }
}

#[cfg(test)]
mod tests {
    use super::super::{count, lines_of};
    use super::*;

    #[test]
    fn every_call_is_refused() {
        let lines = lines_of(&refused_calls());
        assert_eq!(
            (
                count(&lines, "begin 4000007 10"),
                count(&lines, "take 22"),
                count(&lines, "act 22")
            ),
            (342, 341, 341)
        );
    }

    #[test]
    fn the_damage_is_the_last_byte_alone() {
        let mut case = damaged();
        assert_eq!((case.roll.len(), lines_of(&case)), (65_536, vec!["roll ?".to_owned()]));
        case.roll.pop();
        assert_eq!(lines_of(&case).len(), 1_025);
    }
}
