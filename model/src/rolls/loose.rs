//! Calls in no order: begins that rise, repeat, fall and go too far, messages right and wrong in every way, acts anywhere.
use super::draft::{self, Draft};
use super::random::Random;
use crate::history::bench::{Call, LAST_BEAT};
use crate::history::message::{Kind, Message, LAST_VIEW};

pub fn roll(random: &mut Random) -> Vec<u8> {
    let (n, own) = draft::numbers(random);
    let mut draft = Draft::new(n, own);
    let mut beat = start(random);
    let events = random.pick(&[0, 1, 5, 40, 40, 100, 100, 300, 1_024]);
    for _ in 0..random.from_to(events / 2, events) {
        let call = match random.below(10) {
            0..=2 => begin(random, &mut beat),
            3..=7 => Call::Receive(message(random, n, beat)),
            _ => Call::Act {
                block: draft::offer(random, 60),
                priority: draft::priority(random),
            },
        };
        draft.push(call);
    }
    draft.roll()
}

fn start(random: &mut Random) -> u32 {
    match random.below(6) {
        0..=2 => 0,
        3 => random.below(40) as u32,
        4 => LAST_BEAT - random.below(40) as u32,
        _ => random.below(LAST_BEAT as usize) as u32,
    }
}

/// A begin, mostly of a later beat; `beat` follows the beats that are not refused.
fn begin(random: &mut Random, beat: &mut u32) -> Call {
    let asked = match random.below(20) {
        0 => *beat,
        1 => beat.saturating_sub(random.from_to(1, 9) as u32),
        2 => LAST_BEAT + random.from_to(1, 3) as u32,
        3 => random.pick(&[u32::MAX, 0, 1 << 31]),
        4 => *beat + random.from_to(2, 7) as u32,
        _ => *beat + 1,
    };
    if asked > *beat && asked <= LAST_BEAT {
        *beat = asked;
    }
    Call::Begin(asked)
}

/// A message about the present views, and often something wrong with it, at times twice.
fn message(random: &mut Random, n: u8, beat: u32) -> Vec<u8> {
    let kind = random.pick(&[Kind::Log, Kind::Log, Kind::Proposal]);
    let near = (beat / 4 + 1).saturating_sub(random.below(3) as u32);
    let message = Message {
        kind,
        sender: random.below(usize::from(n)) as u8,
        view: near.min(LAST_VIEW),
        priority: if kind == Kind::Log { 0 } else { draft::priority(random) },
        log: draft::log(random, 3),
    };
    let mut bytes = message.write();
    for _ in 0..random.pick(&[0, 0, 0, 1, 1, 2]) {
        spoil(random, n, &mut bytes);
    }
    bytes
}

/// One thing wrong with a message, mostly one that a refusal is for.
fn spoil(random: &mut Random, n: u8, bytes: &mut Vec<u8>) {
    let head = bytes.len() >= 16;
    match random.below(10) {
        0 => bytes.truncate(random.below(16)),
        1 => bytes.truncate(random.below(bytes.len() + 1)),
        2 => bytes.push(random.bits() as u8),
        3 if head => bytes[0] = random.pick(&[0, 1, 2, 64, 65, 255]),
        4 if head => bytes[2] = random.pick(&[0, 1, 2, 3, 255]),
        5 if head => bytes[random.pick(&[3, 8, 15])] = random.pick(&[1, 128]),
        6 if head => bytes[1] = random.pick(&[n, n + 1, 255]),
        7 if head => bytes[4..8].copy_from_slice(&view_too_high(random).to_le_bytes()),
        8 if head => unname(random, bytes),
        _ if head => bytes[4] = random.bits() as u8,
        _ => bytes.clear(),
    }
}

fn view_too_high(random: &mut Random) -> u32 {
    random.pick(&[LAST_VIEW + 1, LAST_VIEW + 2, 1 << 24, u32::MAX])
}

/// Takes the name of one of the blocks away.
fn unname(random: &mut Random, bytes: &mut [u8]) {
    let said = usize::from(bytes[0]);
    let (names, _) = bytes[16..].as_chunks_mut::<8>();
    let blocks = names.len().min(said);
    if blocks > 0 {
        names[random.below(blocks)] = [0; 8];
    }
}
