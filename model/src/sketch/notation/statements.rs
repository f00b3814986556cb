//! A line, and the statements about the sketch as a whole.
use super::cursor::Cursor;
use super::draft::Draft;
use super::fates;
use super::fault::Fault;
use super::lists::{benches, numbers, Benches};
use super::turns;
use super::words::Word;
use crate::history::bench::{Rules, LAST_BEAT, MOST_BENCHES};

/// The most beats of a sketch.
const MOST_BEATS: u32 = 48;

/// The names of the mistakes, in the order of `Rules::MISTAKES`.
const MISTAKES: [&str; 6] = [
    "equivocators-unheard",
    "majority-of-all",
    "half-is-enough",
    "snapshots-swapped",
    "snapshot-judges",
    "vote-without-lock",
];

/// Reads one line.
pub fn read(cursor: &mut Cursor, draft: &mut Draft) -> Result<(), Fault> {
    let Some(word) = cursor.peek().cloned() else {
        return Ok(());
    };
    let name = word.text.as_str();
    if draft.n == 0 && !["title", "benches"].contains(&name) {
        return Err(cursor.fault("'benches' or 'title' ('benches N' comes before everything but the title)"));
    }
    if ["title", "benches", "keepers", "beats", "mistake"].contains(&name) {
        draft.once(&word)?;
        cursor.take();
    }
    match name {
        "title" => title(cursor, draft),
        "benches" => number_of_benches(cursor, draft),
        "keepers" => keepers(cursor, draft, &word),
        "beats" => beats(cursor, draft),
        "mistake" => mistake(cursor, draft),
        "LOG" | "PROPOSAL" => fates::read(cursor, draft),
        "all" => turns::read(cursor, draft),
        _ if word.starts_with_digit() => turns::read(cursor, draft),
        _ => Err(cursor.fault(format!(
            "'title', 'benches', 'keepers', 'beats', 'mistake', 'LOG', 'PROPOSAL', 'all' or {}",
            draft.benches().expected()
        ))),
    }
}

/// `title WORDS`
fn title(cursor: &mut Cursor, draft: &mut Draft) -> Result<(), Fault> {
    let Some((column, rest)) = cursor.rest() else {
        return Err(cursor.fault("the words of the title"));
    };
    let words: Vec<&str> = rest.split_whitespace().collect();
    draft.title = words.join(" ");
    match rest.chars().position(|c| c.is_control() && !c.is_whitespace()) {
        None => Ok(()),
        Some(place) => Err(Fault {
            line: cursor.line(),
            column: column + place,
            expected: "characters that can be shown".to_string(),
            found: "a control character".to_string(),
        }),
    }
}

/// `benches N`
fn number_of_benches(cursor: &mut Cursor, draft: &mut Draft) -> Result<(), Fault> {
    let expected = format!("a number of benches from 1 to {MOST_BENCHES}");
    let (n, _) = cursor.number(1..=u64::from(MOST_BENCHES), &expected)?;
    draft.n = n as u8;
    cursor.end()
}

/// `keepers LIST`
fn keepers(cursor: &mut Cursor, draft: &mut Draft, word: &Word) -> Result<(), Fault> {
    if let Some(line) = draft.names_bench() {
        let expected = format!("another statement ('keepers' comes before any line that names a bench, and line {line} does)");
        return Err(Fault::at(word, expected));
    }
    if cursor.peek().is_none() {
        return Err(cursor.fault(format!("{} (somebody must keep the rules)", draft.benches().expected())));
    }
    draft.keepers = Some(match benches(cursor, &draft.benches())? {
        Benches::All(_) => (0..draft.n).collect(),
        Benches::Listed(items) => numbers(&items),
    });
    cursor.end()
}

/// `beats A-B`
fn beats(cursor: &mut Cursor, draft: &mut Draft) -> Result<(), Fault> {
    let (first, _) = cursor.number(0..=u64::from(LAST_BEAT), &format!("a first beat from 0 to {LAST_BEAT}"))?;
    let first = first as u32;
    if !cursor.skips("-") {
        return Err(cursor.fault("'-' and the last beat, as in 0-10"));
    }
    let most = LAST_BEAT.min(first + MOST_BEATS - 1);
    let expected = format!("a last beat from {first} to {most} (at most {MOST_BEATS} beats, and none above {LAST_BEAT})");
    let (last, _) = cursor.number(u64::from(first)..=u64::from(most), &expected)?;
    draft.span = Some((first, last as u32));
    cursor.end()
}

/// `mistake NAME`
fn mistake(cursor: &mut Cursor, draft: &mut Draft) -> Result<(), Fault> {
    for (name, rules) in MISTAKES.into_iter().zip(Rules::MISTAKES) {
        if cursor.takes(name) {
            draft.mistake = Some(rules);
            return cursor.end();
        }
    }
    Err(cursor.stuck())
}
