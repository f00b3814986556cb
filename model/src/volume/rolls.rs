//! Each rule-keeper's list as a roll, whose text must be the lines that the volume saw.
use super::keeper::Keeper;
use crate::history::bench::Call;
use crate::history::roll::{write_roll, MOST_EVENTS, MOST_ROLL};

/// Where the text of this list's roll is not what the volume saw: the first line that differs. A list too long for a roll is
/// judged by the longest start that fits in one.
pub fn differing_line(keeper: &Keeper, text: fn(&[u8]) -> Vec<u8>) -> Option<String> {
    let (roll, calls) = longest_roll(keeper);
    let seen = keeper.list[..calls]
        .iter()
        .fold(keeper.first_line.clone(), |seen, entry| seen + &entry.line);
    let printed = text(&roll);
    if printed == seen.as_bytes() {
        return None;
    }
    let printed = String::from_utf8_lossy(&printed).into_owned();
    let pairs = seen.split('\n').zip(printed.split('\n').chain(std::iter::repeat("")));
    let first = pairs.enumerate().find(|(_, (seen, printed))| seen != printed);
    let first = first.map_or("more lines".to_string(), |(place, (seen, printed))| {
        format!("{place}: {seen} / {printed}")
    });
    Some(format!("bench {} of {}, line {first}", keeper.own, keeper.n))
}

/// Whether a roll can hold this list with one call more.
pub fn has_room(keeper: &Keeper, call: &Call) -> bool {
    let bytes: usize = keeper.list.iter().map(|entry| event_bytes(&entry.call)).sum();
    keeper.list.len() < MOST_EVENTS && SIZES + bytes + event_bytes(call) <= MOST_ROLL
}

/// The bytes before a roll's marks.
const SIZES: usize = 4;

/// A call's mark and body.
fn event_bytes(call: &Call) -> usize {
    match call {
        Call::Begin(_) => 8,
        Call::Receive(bytes) => 4 + bytes.len(),
        Call::Act { .. } => 22,
    }
}

/// The roll of the longest start of the list that is one, and how many calls that is.
fn longest_roll(keeper: &Keeper) -> (Vec<u8>, usize) {
    let mut left = MOST_ROLL - SIZES;
    let mut calls = vec![];
    for entry in keeper.list.iter().take(MOST_EVENTS) {
        match left.checked_sub(event_bytes(&entry.call)) {
            Some(rest) => left = rest,
            None => break,
        }
        calls.push(entry.call.clone());
    }
    (write_roll(keeper.n, keeper.own, &calls), calls.len())
}
