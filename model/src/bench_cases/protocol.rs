//! A roll as a bench lives it: four benches in step, messages of a beat handed over in the next one, a LOG passed on once more.
use super::events::Events;
use super::Case;
use crate::record::{Block, Desk, Made};

const N: u8 = 4;

/// A bench at work beside the one whose roll is kept.
impl Desk {
    /// Begins the beat, takes what comes and acts; the message made.
    fn live(&mut self, beat: u32, inbox: &[Vec<u8>], offered: Block, priority: u64) -> Option<Vec<u8>> {
        self.begin(beat).expect("beats rise");
        for message in inbox {
            self.receive(message).expect("views are open");
        }
        match self.act(offered, priority).expect("a gathering is under way") {
            Made::Nothing => None,
            Made::Log(blocks) | Made::Proposal(blocks) => Some(self.out[..16 + 10 * blocks as usize].to_vec()),
        }
    }
}

fn opened(own: u8) -> Desk {
    Desk::open(N, own, 0).expect("number and lists are in range")
}

/// A block is offered in every eighth view only, so logs stay small over many views.
fn offer(beat: u32, own: u8) -> (Block, u64) {
    let view = beat / 4;
    let offers = beat.is_multiple_of(4) && view.is_multiple_of(8);
    let name = if offers { 100 * (view as u64 + 1) + own as u64 } else { 0 };
    (Block { name, count: own.into() }, (own as u64 * 7 + view as u64 * 5) % 11)
}

/// Sent by others than bench 0, who needs no message of its own back.
fn from_others(sent: &[Vec<u8>]) -> Vec<Vec<u8>> {
    sent.iter().filter(|message| message[1] != 0).cloned().collect()
}

/// Beats in step, each bench getting what the others sent in the beat before, and LOGs once more a beat later, passed on. The
/// roll is bench 0's, up to 1,024 events.
pub fn small_logs() -> Case {
    let mut desks: Vec<Desk> = (0..N).map(opened).collect();
    let mut events = Events::new();
    let mut sent: Vec<Vec<u8>> = Vec::new();
    let mut passed_on: Vec<Vec<u8>> = Vec::new();
    for beat in 0.. {
        let inbox = [sent.clone(), passed_on.clone()].concat();
        if !keep(&mut events, beat, &from_others(&inbox)) {
            break;
        }
        passed_on = sent.iter().filter(|message| message[2] == 1).cloned().collect();
        sent = desks
            .iter_mut()
            .zip(0..)
            .filter_map(|(desk, own)| desk.live(beat, &inbox, offer(beat, own).0, offer(beat, own).1))
            .collect();
    }
    Case {
        name: "protocol of four benches, small logs",
        roll: events.roll(N, 0),
        events: events.count(),
    }
}

/// The events of a beat at bench 0, until there is no room.
fn keep(events: &mut Events, beat: u32, inbox: &[Vec<u8>]) -> bool {
    if !events.has_room(4) {
        return false;
    }
    events.begin(beat);
    for message in inbox {
        if !events.has_room(message.len()) {
            return false;
        }
        events.receive(message);
    }
    if !events.has_room(18) {
        return false;
    }
    let (offered, priority) = offer(beat, 0);
    events.act(offered, priority);
    true
}

#[cfg(test)]
mod tests {
    use super::super::lines_of;
    use super::*;

    #[test]
    fn the_roll_is_full_and_the_bench_votes_and_decides_in_it() {
        let case = small_logs();
        let lines = lines_of(&case);
        assert_eq!(case.events, 1_024);
        let with = |start: &str| lines.iter().filter(|line| line.starts_with(start)).count();
        assert!(with("act log") > 60 && with("act proposal") > 7 && with("take first") > 200 && with("take known") > 200);
        assert_eq!(with("take second"), 0);
        let last = lines.iter().rev().find(|line| line.starts_with("act ")).unwrap();
        assert!(last.ends_with(" 8") || last.ends_with(" 9"), "{last}");
        assert!(!lines
            .iter()
            .any(|line| line.starts_with("take 2") || line.ends_with("parted")));
    }
}
