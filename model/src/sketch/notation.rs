//! The notation of sketches: a text read as a schedule, or its first fault (docs/SKETCHES.md teaches the notation).
//!
//! A line is cut into words (`words`), which a cursor goes through (`cursor`). Each statement is one small function
//! (`statements`, `turns`, `fates`) and adds to what the sketch says so far (`draft`). What depends on lines that may still
//! come, such as who sleeps, is checked when all are read, at the word concerned.
mod cursor;
mod draft;
mod fates;
mod fault;
mod lists;
mod meets;
mod needs;
mod parts;
mod remarks;
mod statements;
mod turns;
mod words;

#[cfg(test)]
mod faulty;
#[cfg(test)]
mod sound;
#[cfg(test)]
mod taught;

pub use fault::Fault;

use super::schedule::Schedule;
use cursor::Cursor;
use draft::Draft;

/// The schedule that a sketch says, or the first fault in the text. Where a line cannot be read, those before it are still
/// checked: lines to come could only put more benches to sleep. What they could mend is checked when all are read.
pub fn read(text: &str) -> Result<Schedule, Fault> {
    let text = text.strip_prefix('\u{feff}').unwrap_or(text);
    let mut draft = Draft::default();
    let broken = match read_lines(text, &mut draft) {
        Err(fault) => vec![fault],
        Ok(()) => draft.unforged(),
    };
    let faults = broken.into_iter().chain(draft.unmet());
    match faults.min_by_key(|fault| (fault.line, fault.column)) {
        Some(fault) => Err(fault),
        None => draft.schedule().map_err(|missing| Fault::at_end(text, missing)),
    }
}

fn read_lines(text: &str, draft: &mut Draft) -> Result<(), Fault> {
    for (number, line) in (1..).zip(text.split('\n')) {
        statements::read(&mut Cursor::new(number, line), draft)?;
    }
    Ok(())
}
