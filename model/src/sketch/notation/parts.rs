//! The parts of a message.
use super::cursor::{digits, Cursor};
use super::fault::Fault;
use crate::history::message::{Block, Kind, Log, LAST_VIEW, MOST_BLOCKS};

/// The priority where none is said.
const PRIORITY: u64 = 1;

/// LOG or PROPOSAL.
pub fn kind(cursor: &mut Cursor) -> Result<Kind, Fault> {
    if cursor.takes("LOG") {
        return Ok(Kind::Log);
    }
    cursor.must_take("PROPOSAL")?;
    Ok(Kind::Proposal)
}

/// NAME or NAME*COUNT.
pub fn block(cursor: &mut Cursor) -> Result<Block, Fault> {
    let expected = match cursor.peek().is_some_and(|word| word.starts_with_digit()) {
        true => "a block's name from 1 to 18446744073709551615",
        false => "a block such as 5 or 5*3",
    };
    let (name, _) = cursor.number(1..=u64::MAX, expected)?;
    let mut count = 1;
    if cursor.skips("*") {
        (count, _) = cursor.number(0..=u64::from(u16::MAX), "a number of entries from 0 to 65535")?;
    }
    Ok(Block {
        name,
        count: count as u16,
    })
}

/// Blocks in brackets, the oldest first.
pub fn log(cursor: &mut Cursor) -> Result<Log, Fault> {
    if !cursor.skips("[") {
        return Err(cursor.fault("a log such as [5 6*3]"));
    }
    let mut log = vec![];
    let mut after_comma = false;
    while after_comma || !cursor.skips("]") {
        if log.len() == MOST_BLOCKS {
            return Err(cursor.fault(format!("']' (a log has at most {MOST_BLOCKS} blocks)")));
        }
        if !after_comma {
            cursor.seek("']'");
        }
        log.push(block(cursor)?);
        after_comma = cursor.skips(",");
    }
    Ok(log)
}

/// A log, if one stands here.
pub fn maybe_log(cursor: &mut Cursor) -> Result<Option<Log>, Fault> {
    if cursor.peek().is_some_and(|word| word.text == "[") {
        return log(cursor).map(Some);
    }
    cursor.seek("a log such as [5 6*3]");
    Ok(None)
}

/// A view such as v1.
pub fn view(cursor: &mut Cursor) -> Result<u32, Fault> {
    let number = cursor.peek().and_then(|word| digits(word.text.strip_prefix('v')?));
    match number.filter(|&view| view <= u64::from(LAST_VIEW)) {
        Some(view) => {
            cursor.take();
            Ok(view as u32)
        }
        None => Err(cursor.fault(format!("a view from v0 to v{LAST_VIEW}"))),
    }
}

/// `priority P`, if it stands here.
pub fn priority(cursor: &mut Cursor) -> Result<u64, Fault> {
    match cursor.takes("priority") {
        true => Ok(cursor.number(0..=u64::MAX, "a priority from 0 to 18446744073709551615")?.0),
        false => Ok(PRIORITY),
    }
}
