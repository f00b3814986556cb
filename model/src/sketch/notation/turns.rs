//! The statements that start with benches: who sleeps, who only begins, who offers a block, what a rule-breaker sends.
use super::cursor::Cursor;
use super::draft::Draft;
use super::fault::Fault;
use super::lists::{benches, numbers, Benches, Item};
use super::needs::Deed;
use super::parts::{block, kind, log, priority, view};
use crate::history::message::{Kind, Message, LAST_VIEW};
use crate::sketch::schedule::{Offer, Tell};
use crate::volume::schedule::Presence;

/// `LIST sleeps ..`, `LIST begins ..`, `BENCH offers ..` or `BENCH sends ..`
pub fn read(cursor: &mut Cursor, draft: &mut Draft) -> Result<(), Fault> {
    draft.note_bench(cursor.line());
    let list = benches(cursor, &draft.benches())?;
    if cursor.takes("sleeps") {
        return presence(cursor, draft, list, Presence::Skips);
    }
    if cursor.skips("begins") {
        return presence(cursor, draft, list, Presence::Begins);
    }
    let Some(alone) = list.alone() else {
        return Err(cursor.fault("'begins' (only one bench at a time 'offers' or 'sends')"));
    };
    cursor.seek("'begins'");
    if cursor.takes("offers") {
        return offers(cursor, draft, &alone);
    }
    cursor.must_take("sends")?;
    sends(cursor, draft, &alone)
}

/// `LIST sleeps BEATS` or `LIST begins BEATS`
fn presence(cursor: &mut Cursor, draft: &mut Draft, list: Benches, presence: Presence) -> Result<(), Fault> {
    let benches = draft.keepers_of(list)?;
    let beats = draft.beats(cursor)?.list(cursor)?;
    for beat in &beats {
        for bench in benches.iter().map(Item::bench) {
            let said = *draft.presence.entry((bench, beat.number)).or_insert(presence);
            if said != presence {
                return Err(Fault::at(&beat.word, said_already(bench, beat.number, said)));
            }
        }
    }
    cursor.end()
}

fn said_already(bench: u8, beat: u32, presence: Presence) -> String {
    let does = match presence {
        Presence::Skips => "sleeps at",
        _ => "begins",
    };
    format!("another beat (bench {bench} {does} beat {beat} already)")
}

/// `BENCH offers BLOCK at BEAT [priority P]`
fn offers(cursor: &mut Cursor, draft: &mut Draft, who: &Item) -> Result<(), Fault> {
    let bench = draft.keeper(who)?;
    let block = block(cursor)?;
    cursor.must_take("at")?;
    let beat = draft.beats(cursor)?.one(cursor)?;
    check_offer(draft, bench, &beat)?;
    draft.need(Deed::BeAwake, bench, beat.number, beat.word);
    draft.offers.push(Offer {
        bench,
        beat: beat.number,
        block,
        priority: priority(cursor)?,
    });
    cursor.end()
}

/// That a block can be used at this beat, and that it is the only one.
fn check_offer(draft: &Draft, bench: u8, beat: &Item) -> Result<(), Fault> {
    let Item { number: beat, word } = beat;
    if beat % 4 != 0 || beat / 4 > LAST_VIEW {
        let last = 4 * LAST_VIEW;
        let expected = format!("a beat 4v (a block is used at beats 4v only: 0, 4, 8, .. up to {last})");
        return Err(Fault::at(word, expected));
    }
    if draft.offers.iter().any(|offer| (offer.bench, offer.beat) == (bench, *beat)) {
        let expected = format!("another beat (bench {bench} offers a block at beat {beat} already)");
        return Err(Fault::at(word, expected));
    }
    Ok(())
}

/// `BENCH sends LOG vV [as NUMBER] LOG to LIST at BEAT`, or the same with PROPOSAL and `[priority P]` after the log
fn sends(cursor: &mut Cursor, draft: &mut Draft, who: &Item) -> Result<(), Fault> {
    let teller = draft.breaker(who)?;
    let message = message(cursor, draft, teller)?;
    if message.kind == Kind::Log && cursor.peek().is_some_and(|word| word.text == "priority") {
        return Err(cursor.fault("'to' (a LOG has no priority)"));
    }
    cursor.must_take("to")?;
    let list = benches(cursor, &draft.receivers())?;
    let to_all = matches!(list, Benches::All(_));
    let receivers = draft.keepers_of(list)?;
    cursor.must_take("at")?;
    let beat = draft.beats(cursor)?.one(cursor)?.number;
    draft.tells.push(Tell {
        teller,
        beat,
        to: numbers(&receivers),
        message,
    });
    for receiver in receivers.into_iter().filter(|_| !to_all) {
        draft.need(Deed::Begin, receiver.bench(), beat, receiver.word);
    }
    cursor.end()
}

/// The message that a rule-breaker sends, under its own number or another.
fn message(cursor: &mut Cursor, draft: &Draft, teller: u8) -> Result<Message, Fault> {
    let kind = kind(cursor)?;
    let view = view(cursor)?;
    let sender = match cursor.takes("as") {
        true => draft.benches().one(cursor)?.bench(),
        false => teller,
    };
    let log = log(cursor)?;
    let priority = match kind {
        Kind::Log => 0,
        Kind::Proposal => priority(cursor)?,
    };
    Ok(Message {
        kind,
        sender,
        view,
        priority,
        log,
    })
}
