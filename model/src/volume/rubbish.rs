//! Calls that a bench refuses, whatever happened before: they belong to the lists too.
use super::keeper::Keeper;
use super::messages::vote;
use crate::history::bench::Call;
use crate::history::message::{Block, Message};
use crate::rolls::random::Random;

/// A call that this bench refuses in its present state.
pub fn refused_call(random: &mut Random, keeper: &Keeper) -> Call {
    let last = keeper.list.last().and_then(|entry| entry.beat);
    match (random.below(4), keeper.gathering, last) {
        (0, None, _) => Call::Act {
            block: any_block(random),
            priority: random.bits(),
        },
        (1, None, _) => Call::Receive(any_vote(random, keeper.n).write()),
        (2, _, Some(beat)) => Call::Begin(random.below(beat as usize + 1) as u32),
        (3, _, _) => Call::Begin(4_000_007 + random.below(1_000) as u32),
        _ => Call::Receive(bad_bytes(random, keeper.n, last.unwrap_or(0))),
    }
}

/// A LOG of some sender and early view.
fn any_vote(random: &mut Random, n: u8) -> Message {
    let log = (0..random.below(3)).map(|_| any_block(random)).collect();
    vote(random.below(usize::from(n)) as u8, random.below(4) as u32, log)
}

fn any_block(random: &mut Random) -> Block {
    let (name, count) = (1 + random.bits() % 9, 1);
    Block { name, count }
}

/// Bytes with one of the causes of 1 to 6, or of a view whose window has passed or that no volume here reaches.
fn bad_bytes(random: &mut Random, n: u8, beat: u32) -> Vec<u8> {
    let mut message = any_vote(random, n);
    message.log.push(Block { name: 7, count: 2 });
    match random.below(4) {
        0 => message.sender = n + random.below(20) as u8,
        1 => message.view = 1_000_001,
        2 => message.log[0].name = 0,
        _ => message.view = if beat > 6 && random.percent(50) { 0 } else { 900_000 },
    }
    let mut bytes = message.write();
    match random.below(6) {
        0 => bytes.truncate(random.below(bytes.len())),
        1 => bytes.push(0),
        2 => bytes[2] = 3,
        3 => bytes[8] = 1,
        _ => {}
    }
    bytes
}
