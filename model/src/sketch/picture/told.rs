//! What the rule-breakers tell: each message a box in its teller's row, and a line from it to those that are handed it.
use super::mark::{Cell, Mark, Sign};
use super::words::{self, around, message, of_view, priority, set};
use crate::history::message::{Kind, Log, Message};
use crate::sketch::schedule::{Schedule, Tell};

/// A message told, and where it is drawn.
pub struct Told<'a> {
    pub tell: &'a Tell,
    pub column: usize,
    /// Which mark of its cell is its box.
    pub mark: usize,
    /// Which line of its column leads from it, counted from the cell's text to the left.
    pub lane: usize,
    /// Which of several stories it is, from 1 on; 0 for the only one.
    pub story: u8,
}

/// The cells of the rule-breakers, in the order of `breakers`, and their messages. Lower boxes have lines further to the left,
/// so that no line crosses another: all lead up.
pub fn told<'a>(schedule: &'a Schedule, breakers: &[u8], columns: usize) -> (Vec<Vec<Cell>>, Vec<Told<'a>>) {
    let stories = stories(&schedule.tells);
    let (mut rows, mut all) = (vec![], vec![]);
    let mut lanes = vec![0; columns];
    for &breaker in breakers {
        let mut cells = vec![Cell::new(); columns];
        for (tell, &(story, of)) in schedule.tells.iter().zip(&stories).filter(|(tell, _)| tell.teller == breaker) {
            let column = tell.beat.wrapping_sub(schedule.first_beat) as usize;
            let Some(cell) = cells.get_mut(column) else { continue };
            let (mark, lane) = (cell.len(), lanes[column]);
            lanes[column] += 1;
            cell.extend(marks(tell, story, of));
            all.push(Told {
                tell,
                column,
                mark,
                lane,
                story,
            });
        }
        rows.push(cells);
    }
    (rows, all)
}

/// The box, and below it what is odd about the message.
fn marks(tell: &Tell, story: u8, of: usize) -> Cell {
    let Message {
        kind, view, sender, log, ..
    } = &tell.message;
    let sign = Sign::Told(story);
    let text = around(
        &format!("{} ", words::kind(*kind)),
        log,
        &format!("{}{}", of_view(*view, tell.beat), priority(&tell.message)),
        sign.room(),
    );
    let whole = whole(tell);
    let mut marks = vec![Mark::new(sign, &text, whole.clone())];
    if of > 1 {
        marks.push(Mark::new(Sign::Stories, &story_words(story, of), whole.clone()));
    }
    if *sender != tell.teller {
        marks.push(Mark::new(Sign::Forged, &format!("forged as bench {sender}"), whole.clone()));
    }
    if tell.to.is_empty() {
        marks.push(Mark::new(Sign::Nobody, "to nobody", whole));
    }
    marks
}

fn whole(tell: &Tell) -> String {
    let (teller, beat) = (tell.teller, tell.beat);
    format!(
        "{}, told by bench {teller} to {} at beat {beat}",
        message(&tell.message),
        set(&tell.to)
    )
}

fn story_words(story: u8, of: usize) -> String {
    match of {
        2 => format!("two stories ({story})"),
        3 => format!("three stories ({story})"),
        _ => format!("{of} stories ({story})"),
    }
}

/// For each message: which of the stories under its number, in its view and of its kind it tells, and how many there are; 0
/// where there is one only. A proposal is another if its priority is.
fn stories(tells: &[Tell]) -> Vec<(u8, usize)> {
    let story = |tell: &Tell| {
        let same = tells.iter().filter(|other| same_place(&other.message, &tell.message));
        let mut distinct: Vec<(&Log, u64)> = vec![];
        for other in same.map(|other| (&other.message.log, other.message.priority)) {
            if !distinct.contains(&other) {
                distinct.push(other);
            }
        }
        let place = distinct
            .iter()
            .position(|&(log, priority)| (log, priority) == (&tell.message.log, tell.message.priority));
        match distinct.len() {
            1 => (0, 1),
            many => (place.map_or(0, |place| u8::try_from(place + 1).unwrap_or(u8::MAX)), many),
        }
    };
    tells.iter().map(story).collect()
}

fn same_place(one: &Message, other: &Message) -> bool {
    let place = |message: &Message| (message.kind == Kind::Log, message.sender, message.view);
    place(one) == place(other)
}
