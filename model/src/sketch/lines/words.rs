//! Words for numbers, logs and messages.
use crate::history::message::{Block, Kind, Message};
use crate::sketch::schedule::Fate;
pub use crate::sketch::words::{block, counted, log, rules};

/// A log within a sentence.
pub fn log_or_empty(blocks: &[Block]) -> String {
    match blocks {
        [] => "the empty log".to_string(),
        _ => log(blocks),
    }
}

/// Numbers in a row.
pub fn numbers<'a>(numbers: impl IntoIterator<Item = &'a u8>) -> String {
    let words: Vec<String> = numbers.into_iter().map(u8::to_string).collect();
    words.join(" ")
}

/// Numbers in a row, or nobody.
pub fn numbers_or_nobody<'a>(these: impl IntoIterator<Item = &'a u8>) -> String {
    let row = numbers(these);
    if row.is_empty() {
        return "nobody".to_string();
    }
    row
}

/// `beat 4`, `beats 4 to 6`.
pub fn span(what: &str, first: u32, last: u32) -> String {
    match first == last {
        true => format!("{what} {first}"),
        false => format!("{what}s {first} to {last}"),
    }
}

/// A message as sketches write it.
pub fn message(message: &Message) -> String {
    let Message {
        view, sender, priority, ..
    } = message;
    let blocks = log(&message.log);
    match message.kind {
        Kind::Log => format!("LOG v{view} of {sender} {blocks}"),
        Kind::Proposal => format!("PROPOSAL v{view} of {sender} {blocks}, priority {priority}"),
    }
}

/// A line about what is lost or late, as sketches write it.
pub fn fate(fate: &Fate) -> String {
    let Fate { view, sender, .. } = fate;
    let kind = match fate.kind {
        Kind::Log => "LOG",
        Kind::Proposal => "PROPOSAL",
    };
    let blocks = fate.log.as_ref().map_or(String::new(), |blocks| format!(" {}", log(blocks)));
    let to = numbers(&fate.to);
    let reaches = match fate.at {
        Some(beat) => format!("reaches {to} at {beat}"),
        None => format!("never reaches {to}"),
    };
    format!("{kind} v{view} of {sender}{blocks} {reaches}")
}

/// Snapshot one or two.
pub fn snapshot(number: u8) -> &'static str {
    match number {
        1 => "snapshot one",
        _ => "snapshot two",
    }
}

/// What a refusal's number means.
pub fn refusal(number: u8) -> &'static str {
    match number {
        1 => "under 16 bytes",
        2 => "its length does not fit its blocks",
        3 => "kind, byte 3 or a LOG's priority wrong",
        4 => "no such sender",
        5 => "no such view",
        6 => "a block named zero",
        10 => "no such beat",
        20 => "a beat not above the last begun",
        21 => "its view is not open to it at this beat",
        22 => "no gathering under way",
        _ => "out of range",
    }
}
