//! The roll (a recorded trace of calls) and the text that a program prints for it (document 01, The roll).
use super::bench::{Bench, Call, Reply, Rules, Word};
use super::message::{number, Block, Kind};

/// The most bytes of a roll.
pub const MOST_ROLL: usize = 65_536;
/// The most events of a roll.
pub const MOST_EVENTS: usize = 1_024;
/// The most bytes of a receive's body.
pub const MOST_BODY: usize = 656;

/// The text of every byte string that is no roll.
pub const NO_ROLL: &[u8] = b"roll ?\n";

/// A roll as it is read: the two numbers of Open, and the calls.
#[derive(Clone, PartialEq, Eq, Debug)]
pub struct Roll {
    pub n: u8,
    pub own: u8,
    pub calls: Vec<Call>,
}

/// Why bytes are no roll. The text says `roll ?` for each; the causes stand apart for those who count them.
#[derive(Clone, Copy, PartialEq, Eq, Debug, Hash, PartialOrd, Ord)]
pub enum NoRoll {
    TooLong,
    NoSizes,
    TooManyEvents,
    MarksCut,
    BadKind,
    BadSecondByte,
    BadBodyLength,
    BodiesCut,
    LeftOver,
    NotOpened,
}

impl NoRoll {
    pub const ALL: [NoRoll; 10] = [
        NoRoll::TooLong,
        NoRoll::NoSizes,
        NoRoll::TooManyEvents,
        NoRoll::MarksCut,
        NoRoll::BadKind,
        NoRoll::BadSecondByte,
        NoRoll::BadBodyLength,
        NoRoll::BodiesCut,
        NoRoll::LeftOver,
        NoRoll::NotOpened,
    ];
}

/// The whole output for the bytes of a roll.
pub fn text(roll: &[u8]) -> Vec<u8> {
    text_under(Rules::Paper, roll)
}

/// The same from a bench that makes one of the mistakes.
pub fn text_under(rules: Rules, roll: &[u8]) -> Vec<u8> {
    let Ok(roll) = read_roll(roll) else {
        return NO_ROLL.to_vec();
    };
    let Ok(mut bench) = Bench::open_under(rules, roll.n, roll.own) else {
        return NO_ROLL.to_vec();
    };
    let mut text = first_line(&bench);
    for call in &roll.calls {
        let reply = bench.call(call);
        text += &line(call, &reply, &bench);
    }
    text.into_bytes()
}

/// The line before all events, with its line feed.
pub fn first_line(bench: &Bench) -> String {
    format!("bench {} of {}\n", bench.own(), bench.n())
}

/// One event's line with its line feed; the bench is the one after the call.
pub fn line(call: &Call, reply: &Reply, bench: &Bench) -> String {
    let said = said(reply, bench);
    match call {
        Call::Begin(beat) => format!("begin {beat} {said}\n"),
        Call::Receive(_) => format!("take {said}\n"),
        Call::Act { .. } => format!("act {said}\n"),
    }
}

fn said(reply: &Reply, bench: &Bench) -> String {
    match reply {
        Reply::Begun => "ok".to_string(),
        Reply::Took(Word::First) => "first".to_string(),
        Reply::Took(Word::Second) => "second".to_string(),
        Reply::Took(Word::Known) => "known".to_string(),
        Reply::Refused(number) => number.to_string(),
        Reply::Acted(made) => {
            let (kind, blocks) = match made {
                None => ("none", 0),
                Some(message) if message.kind == Kind::Log => ("log", message.log.len()),
                Some(message) => ("proposal", message.log.len()),
            };
            let (decided, parted) = bench.standing();
            format!("{kind} {blocks} {}{}", decided.len(), if parted { " parted" } else { "" })
        }
    }
}

/// The roll that the bytes write. The whole form is judged before anything is called.
pub fn read_roll(bytes: &[u8]) -> Result<Roll, NoRoll> {
    if bytes.len() > MOST_ROLL {
        return Err(NoRoll::TooLong);
    }
    let (sizes, rest) = bytes.split_at_checked(4).ok_or(NoRoll::NoSizes)?;
    let (n, own, events) = (sizes[0], sizes[1], number(&sizes[2..4]) as usize);
    if events > MOST_EVENTS {
        return Err(NoRoll::TooManyEvents);
    }
    let (marks, mut bodies) = rest.split_at_checked(4 * events).ok_or(NoRoll::MarksCut)?;
    let mut calls = vec![];
    for mark in marks.chunks_exact(4) {
        let length = body_length(mark)?;
        let (body, after) = bodies.split_at_checked(length).ok_or(NoRoll::BodiesCut)?;
        calls.push(read_call(mark[0], body));
        bodies = after;
    }
    if !bodies.is_empty() {
        return Err(NoRoll::LeftOver);
    }
    Bench::open(n, own).map_err(|_| NoRoll::NotOpened)?;
    Ok(Roll { n, own, calls })
}

/// The body length that a mark gives, if the mark is one.
fn body_length(mark: &[u8]) -> Result<usize, NoRoll> {
    let length = number(&mark[2..4]) as usize;
    let fits = match mark[0] {
        1 => length == 4,
        2 => length <= MOST_BODY,
        3 => length == 18,
        _ => return Err(NoRoll::BadKind),
    };
    if mark[1] != 0 {
        return Err(NoRoll::BadSecondByte);
    }
    fits.then_some(length).ok_or(NoRoll::BadBodyLength)
}

/// The call of a body whose length fits its kind.
fn read_call(kind: u8, body: &[u8]) -> Call {
    match kind {
        1 => Call::Begin(number(body) as u32),
        2 => Call::Receive(body.to_vec()),
        _ => Call::Act {
            block: Block {
                name: number(&body[..8]),
                count: number(&body[16..]) as u16,
            },
            priority: number(&body[8..16]),
        },
    }
}

/// The writing of a list of calls.
pub fn write_roll(n: u8, own: u8, calls: &[Call]) -> Vec<u8> {
    write_events(n, own, &calls.iter().map(event).collect::<Vec<_>>())
}

/// The writing of events by kind and body, whatever they hold: lists that no roll has can be written too, to be tried.
pub fn write_events(n: u8, own: u8, events: &[(u8, Vec<u8>)]) -> Vec<u8> {
    let mut roll = vec![n, own];
    roll.extend((events.len() as u16).to_le_bytes());
    for (kind, body) in events {
        roll.extend([*kind, 0]);
        roll.extend((body.len() as u16).to_le_bytes());
    }
    events.iter().for_each(|(_, body)| roll.extend_from_slice(body));
    roll
}

/// A call's kind and body.
pub fn event(call: &Call) -> (u8, Vec<u8>) {
    match call {
        Call::Begin(beat) => (1, beat.to_le_bytes().to_vec()),
        Call::Receive(bytes) => (2, bytes.clone()),
        Call::Act { block, priority } => (
            3,
            [
                &block.name.to_le_bytes()[..],
                &priority.to_le_bytes(),
                &block.count.to_le_bytes(),
            ]
            .concat(),
        ),
    }
}

#[cfg(test)]
mod tests {
    use super::*;
    use crate::history::message::Message;

    fn act(name: u64) -> Call {
        Call::Act {
            block: Block { name, count: 1 },
            priority: 9,
        }
    }

    fn shown(n: u8, own: u8, calls: &[Call]) -> String {
        String::from_utf8(text(&write_roll(n, own, calls))).unwrap()
    }

    fn vote(view: u32, sender: u8, name: u64) -> Call {
        let log = vec![Block { name, count: 1 }];
        Call::Receive(
            Message {
                kind: Kind::Log,
                sender,
                view,
                priority: 0,
                log,
            }
            .write(),
        )
    }

    #[test]
    fn the_sample() {
        let calls: Vec<Call> = (0..=6)
            .flat_map(|beat| [Call::Begin(beat), act(if beat == 0 { 5 } else { 0 })])
            .collect();
        let made = [
            "proposal 1 0",
            "log 1 0",
            "none 0 0",
            "none 0 0",
            "none 0 0",
            "log 1 0",
            "none 0 1",
        ];
        let lines: Vec<String> = (0..7)
            .zip(made)
            .map(|(beat, made)| format!("begin {beat} ok\nact {made}\n"))
            .collect();
        assert_eq!(shown(1, 0, &calls), format!("bench 0 of 1\n{}", lines.concat()));
    }

    #[test]
    fn no_events_give_the_first_line_only() {
        assert_eq!(text(&[32, 31, 0, 0]), b"bench 31 of 32\n");
    }

    #[test]
    fn the_act_body_is_name_priority_count() {
        let body = [1, 2, 0, 0, 0, 0, 0, 0, 3, 4, 0, 0, 0, 0, 0, 0, 5, 6];
        let roll = [&[1, 0, 1, 0, 3, 0, 18, 0][..], &body].concat();
        let call = Call::Act {
            block: Block {
                name: 0x0201,
                count: 0x0605,
            },
            priority: 0x0403,
        };
        assert_eq!(read_roll(&roll).map(|roll| roll.calls), Ok(vec![call.clone()]));
        assert_eq!(write_roll(1, 0, &[call]), roll);
    }

    #[test]
    fn refusals_stand_in_place_and_never_end_the_run() {
        let calls = [
            Call::Receive(vec![]),
            Call::Begin(u32::MAX),
            act(5),
            Call::Begin(1),
            Call::Receive(vec![1]),
            Call::Begin(1),
            vote(0, 1, 5),
            vote(0, 1, 5),
            vote(0, 1, 6),
            act(5),
            act(5),
        ];
        let lines =
            "take 22\nbegin 4294967295 10\nact 22\nbegin 1 ok\ntake 1\nbegin 1 20\ntake first\ntake known\ntake second\n";
        assert_eq!(
            shown(2, 0, &calls),
            format!("bench 0 of 2\n{lines}act log 0 0\nact 22\n"),
            "the empty log is a log"
        );
    }

    #[test]
    fn parted_stands_on_the_marking_line_and_after() {
        let heard = |view, name| {
            [
                Call::Begin(4 * view + 2),
                vote(view, 1, name),
                act(0),
                Call::Begin(4 * view + 6),
                act(0),
            ]
        };
        let calls = [&heard(0, 5)[..], &heard(2, 6), &[act(0), Call::Begin(15), act(0)]].concat();
        let shown = shown(2, 0, &calls);
        let acts: Vec<&str> = shown.lines().filter(|line| line.starts_with("act")).collect();
        let expected = [
            "act none 0 0",
            "act none 0 1",
            "act none 0 1",
            "act none 0 1 parted",
            "act 22",
            "act none 0 1 parted",
        ];
        assert_eq!(acts, expected);
    }

    #[test]
    fn other_forms_are_no_roll() {
        let good = write_roll(2, 0, &[Call::Begin(1), vote(0, 1, 5), act(5)]);
        let with = |place: usize, byte: u8| {
            let mut roll = good.clone();
            roll[place] = byte;
            read_roll(&roll).err()
        };
        assert_eq!(good.len(), 4 + 12 + 4 + 26 + 18);
        assert_eq!(with(0, 2), None);
        assert_eq!(
            (with(0, 0), with(0, 33), with(1, 2)),
            (Some(NoRoll::NotOpened), Some(NoRoll::NotOpened), Some(NoRoll::NotOpened))
        );
        assert_eq!((with(4, 0), with(4, 4)), (Some(NoRoll::BadKind), Some(NoRoll::BadKind)));
        assert_eq!(with(5, 1), Some(NoRoll::BadSecondByte));
        assert_eq!(
            (with(6, 3), with(14, 17)),
            (Some(NoRoll::BadBodyLength), Some(NoRoll::BadBodyLength))
        );
        assert_eq!(
            (with(10, 25), with(10, 27)),
            (Some(NoRoll::LeftOver), Some(NoRoll::BodiesCut))
        );
        assert_eq!(with(3, 5), Some(NoRoll::TooManyEvents));
        assert_eq!(with(3, 4), Some(NoRoll::TooManyEvents), "1,027");
        assert!(with(2, 2).is_some() && with(2, 4).is_some(), "another event count");
        for end in 0..good.len() {
            assert_eq!(text(&good[..end]), NO_ROLL);
        }
        assert_eq!(text(&[&good[..], &[0]].concat()), NO_ROLL);
    }

    #[test]
    fn bodies_and_rolls_at_their_most() {
        let most = [Call::Receive(vec![0; 656])];
        assert_eq!(
            shown(1, 0, &[&[Call::Begin(1)], &most[..]].concat()),
            "bench 0 of 1\nbegin 1 ok\ntake 2\n"
        );
        assert_eq!(text(&write_roll(1, 0, &[Call::Receive(vec![0; 657])])), NO_ROLL);
        assert_eq!(
            read_roll(&write_roll(1, 0, &vec![Call::Begin(0); 1_024])).map(|roll| roll.calls.len()),
            Ok(1_024)
        );
        assert_eq!(
            read_roll(&write_roll(1, 0, &vec![Call::Begin(0); 1_025])),
            Err(NoRoll::TooManyEvents)
        );
        let bodies = |last: usize| [vec![Call::Receive(vec![0; 656]); 99], vec![Call::Receive(vec![0; last])]].concat();
        let room = MOST_ROLL - 4 - 400 - 99 * 656;
        assert_eq!(write_roll(1, 0, &bodies(room)).len(), MOST_ROLL);
        assert!(read_roll(&write_roll(1, 0, &bodies(room))).is_ok());
        assert_eq!(read_roll(&write_roll(1, 0, &bodies(room + 1))), Err(NoRoll::TooLong));
    }
}
