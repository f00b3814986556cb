//! The statements about messages that are lost or late.
use super::cursor::Cursor;
use super::draft::Draft;
use super::fault::Fault;
use super::lists::{benches, numbers, Item};
use super::meets::{beats_of, name, Own, Viewed};
use super::needs::Deed;
use super::parts::{kind, maybe_log, view};
use crate::history::message::Kind;
use crate::sketch::schedule::Fate;

/// `LOG vV of BENCH [LOG] never reaches LIST` or `LOG vV of BENCH [LOG] reaches LIST at BEAT`, and the same with PROPOSAL
pub fn read(cursor: &mut Cursor, draft: &mut Draft) -> Result<(), Fault> {
    draft.note_bench(cursor.line());
    let kind = kind(cursor)?;
    let view = noted_view(cursor, draft, kind)?;
    cursor.must_take("of")?;
    let sender = sender(cursor, draft, kind)?;
    let log = maybe_log(cursor)?;
    let never = cursor.takes("never");
    cursor.must_take("reaches")?;
    let receivers = draft.keepers_of(benches(cursor, &draft.receivers())?)?;
    let mut fate = Fate {
        kind,
        view,
        sender,
        log,
        to: numbers(&receivers),
        at: None,
    };
    check_is_new(draft, &fate, &receivers)?;
    note_own(draft, &fate, &receivers);
    if !never {
        let beat = arrival(cursor, draft, &fate)?;
        fate.at = Some(beat);
        need_gathering(draft, sender, receivers, beat);
    }
    draft.fates.push(fate);
    cursor.end()
}

/// The view, of which the sketch must have beats, by lines before this one or after it.
fn noted_view(cursor: &mut Cursor, draft: &mut Draft, kind: Kind) -> Result<u32, Fault> {
    let word = cursor.peek().cloned();
    let view = view(cursor)?;
    draft.views.extend(word.map(|word| Viewed { kind, view, word }));
    Ok(view)
}

/// Notes that the sender alone is named as a receiver.
fn note_own(draft: &mut Draft, fate: &Fate, receivers: &[Item]) {
    let [Item { number, word }] = receivers else {
        return;
    };
    if *number == u32::from(fate.sender) && word.text != "all" {
        let (fate, word) = (fate.clone(), word.clone());
        draft.own.push(Own { fate, word });
    }
}

/// Whose message it is. A PROPOSAL that a rule-breaker sends goes to whom it is told and no further, so it has no fate.
fn sender(cursor: &mut Cursor, draft: &Draft, kind: Kind) -> Result<u8, Fault> {
    let sender = draft.benches().one(cursor)?;
    match (kind, draft.keeper(&sender)) {
        (Kind::Proposal, Err(_)) => Err(Fault::at(
            &sender.word,
            format!("{} (rule-breakers' PROPOSALs are not passed on)", draft.rule_keeper()),
        )),
        _ => Ok(sender.bench()),
    }
}

/// That nothing else is said of such a message and one of these receivers.
fn check_is_new(draft: &Draft, fate: &Fate, receivers: &[Item]) -> Result<(), Fault> {
    let is_same = |other: &&Fate| {
        let same_log = other.log == fate.log || other.log.is_none() || fate.log.is_none();
        (other.kind, other.view, other.sender) == (fate.kind, fate.view, fate.sender) && same_log
    };
    let is_said = |bench| draft.fates.iter().filter(is_same).any(|other| other.to.contains(&bench));
    match receivers.iter().find(|receiver| is_said(receiver.bench())) {
        None => Ok(()),
        Some(Item { number, word }) => Err(Fault::at(
            word,
            format!("another bench (when this message reaches bench {number} is said already)"),
        )),
    }
}

/// `at BEAT`: a beat after the message can first be made, its window being open.
fn arrival(cursor: &mut Cursor, draft: &Draft, fate: &Fate) -> Result<u32, Fault> {
    cursor.must_take("at")?;
    let beat = draft.beats(cursor)?.one(cursor)?;
    let view = fate.view;
    let ((made, last), name) = (beats_of(fate.kind, view), name(fate.kind));
    if (made + 1..=last).contains(&beat.number) {
        return Ok(beat.number);
    }
    let first = made + 1;
    let beats = if first == last {
        format!("beat {last}")
    } else {
        format!("a beat from {first} to {last}")
    };
    let expected =
        format!("{beats} (a {name} of view {view} is made at beat {made} at the earliest, and taken up to beat {last})");
    Err(Fault::at(&beat.word, expected))
}

/// Each receiver must begin the beat; `all` means nothing for the sender, whose own message it is.
fn need_gathering(draft: &mut Draft, sender: u8, receivers: Vec<Item>, beat: u32) {
    let is_own = |receiver: &Item| receiver.bench() == sender && receiver.word.text == "all";
    for receiver in receivers {
        if !is_own(&receiver) {
            draft.need(Deed::Begin, receiver.bench(), beat, receiver.word);
        }
    }
}
