//! Bytes that are no roll, for each cause, with nothing else wrong where that can be; rolls at their limits; flipped bytes.
use super::random::Random;
use super::{loose, shaped};
use crate::history::message::{Block, Kind, Message};
use crate::history::roll::{event, read_roll, write_events, MOST_BODY, MOST_EVENTS, MOST_ROLL};

pub fn roll(random: &mut Random) -> Vec<u8> {
    let good = if random.percent(50) {
        loose::roll(random)
    } else {
        shaped::roll(random, shaped::Manner::in_company)
    };
    match random.below(14) {
        0 => too_long(random, good),
        1 => good[..random.below(4)].to_vec(),
        2 => too_many_events(random, good),
        3 => with_mark(random, good, |random, mark| mark[0] = random.pick(&[0, 4, 5, 255])),
        4 => with_mark(random, good, |random, mark| mark[1] = random.pick(&[1, 2, 128, 255])),
        5 => with_mark(random, good, |random, mark| {
            mark[random.pick(&[2, 3])] ^= 1 << random.below(8)
        }),
        6 => body_of_another_length(random, good),
        7 => good[..random.below(good.len())].to_vec(),
        8 => [good, vec![random.bits() as u8; random.pick(&[1, 2, 3, 4, 18, 656])]].concat(),
        9 => numbers_out_of_range(random, good),
        10 => at_a_limit(random),
        11 => (0..random.below(100)).map(|_| random.bits() as u8).collect(),
        _ => flipped(random, good),
    }
}

/// Too many bytes: by left-over ones, or with nothing else wrong.
fn too_long(random: &mut Random, mut good: Vec<u8>) -> Vec<u8> {
    let bytes = MOST_ROLL + random.pick(&[1, 1, 1, 2, 9]);
    if random.percent(50) {
        good.resize(bytes, 0);
        return good;
    }
    of_size(bytes)
}

/// A roll of just so many bytes, by receives of the longest body and one of what is left.
fn of_size(bytes: usize) -> Vec<u8> {
    let log = (1..=64).map(|name| Block { name, count: 1 }).collect();
    let longest = Message {
        kind: Kind::Log,
        sender: 0,
        view: 0,
        priority: 0,
        log,
    }
    .write();
    let room = bytes - 4 - 8;
    let mut events = vec![(1, vec![1, 0, 0, 0])];
    events.extend((0..room / (4 + MOST_BODY)).map(|_| (2, longest.clone())));
    events.push((2, vec![1; room % (4 + MOST_BODY) - 4]));
    write_events(1, 0, &events)
}

/// More events than a roll has, all of them there, or the count alone.
fn too_many_events(random: &mut Random, mut good: Vec<u8>) -> Vec<u8> {
    if random.percent(50) {
        return write_events(1, 0, &vec![(1, vec![0; 4]); MOST_EVENTS + random.from_to(1, 2)]);
    }
    good[3] = random.from_to(5, 255) as u8;
    good
}

/// The roll with one of its marks changed, bodies as they were.
fn with_mark(random: &mut Random, mut good: Vec<u8>, change: impl Fn(&mut Random, &mut [u8])) -> Vec<u8> {
    let events = usize::from(u16::from_le_bytes([good[2], good[3]]));
    if events > 0 {
        let at = 4 + 4 * random.below(events);
        change(random, &mut good[at..at + 4]);
    }
    good
}

/// A body of another length than its kind has, with its mark in step.
fn body_of_another_length(random: &mut Random, good: Vec<u8>) -> Vec<u8> {
    let roll = read_roll(&good).expect("a good roll");
    // Few enough to leave room for one more.
    let mut events: Vec<(u8, Vec<u8>)> = roll.calls.iter().take(40).map(event).collect();
    let odd = match random.below(5) {
        0 => (1, vec![0; random.pick(&[0, 3, 5, 18])]),
        1 => (3, vec![0; random.pick(&[0, 4, 17, 19])]),
        _ => (2, vec![0; random.pick(&[MOST_BODY + 1, MOST_BODY + 10, 1_000])]),
    };
    events.insert(random.below(events.len() + 1), odd);
    write_events(roll.n, roll.own, &events)
}

fn numbers_out_of_range(random: &mut Random, mut good: Vec<u8>) -> Vec<u8> {
    match random.below(3) {
        0 => good[0] = 0,
        1 => good[0] = random.from_to(33, 255) as u8,
        _ => good[1] = random.from_to(usize::from(good[0]), 255) as u8,
    }
    good
}

/// A roll at a limit and not over it.
fn at_a_limit(random: &mut Random) -> Vec<u8> {
    match random.below(3) {
        0 => of_size(MOST_ROLL),
        1 => write_events(32, 31, &vec![(1, vec![255; 4]); MOST_EVENTS]),
        _ => write_events(32, 31, &[]),
    }
}

/// A few bits turned over, anywhere.
fn flipped(random: &mut Random, mut good: Vec<u8>) -> Vec<u8> {
    for _ in 0..random.from_to(1, 4) {
        let at = random.below(good.len());
        good[at] ^= 1 << random.below(8);
    }
    good
}
