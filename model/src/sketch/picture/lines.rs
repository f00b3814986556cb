//! The upright lines of a run: from what rule-breakers tell to those that are handed it, and from what goes astray to those it
//! does not reach.
use super::astray::Astray;
use super::layout::{self, Columns};
use super::mark::{story_pen, Mark, Sign};
use super::panel::Panel;
use super::svg::{dashed, pen, Pen, Svg, BLACK, WHITE};
use super::told::Told;
use super::words::message;
use crate::history::bench::Word;
use crate::sketch::story::Take;

/// Of a message that goes astray.
pub const BROKEN: Pen = dashed(BLACK, 2, "4 4");

/// Draws all of them; `top` is that of the first row.
pub fn draw(svg: &mut Svg, panel: &Panel, columns: &Columns, top: i32) {
    for told in &panel.told {
        draw_told(svg, panel, columns, told, top);
    }
    for place in 0..panel.astray.len() {
        draw_astray(svg, panel, columns, place, top);
    }
}

fn draw_told(svg: &mut Svg, panel: &Panel, columns: &Columns, told: &Told, top: i32) {
    let x = columns.told(told.column, told.lane);
    let Some(row) = panel.row(told.tell.teller) else { return };
    let cell = &panel.rows[row].cells[told.column];
    let from = top + panel.spans[row].middle(cell, told.mark);
    let arrivals = arrivals(panel, &told.tell.to, top);
    let Some(highest) = arrivals.iter().map(|(_, y)| *y).min() else {
        return;
    };
    svg.course(
        &[(columns.text(told.column), from), (x, from), (x, highest)],
        story_pen(told.story),
    );
    for (to, y) in arrivals {
        let answer = answer(panel, told, to);
        let words = format!(
            "{}, handed to bench {to} by bench {}: {}",
            message(&told.tell.message),
            told.tell.teller,
            spoken(answer)
        );
        let fill = if matches!(answer, Some(Err(_))) { WHITE } else { BLACK };
        svg.titled(&words, |svg| arrowhead(svg, (x, y), fill));
    }
}

/// Pointing into the cell.
pub fn arrowhead(svg: &mut Svg, (x, y): (i32, i32), fill: &str) {
    svg.shape(&[(x - 3, y - 4), (x + 5, y), (x - 3, y + 4)], fill, pen(BLACK, 1));
}

/// Where lines arrive at these benches.
fn arrivals(panel: &Panel, benches: &[u8], top: i32) -> Vec<(u8, i32)> {
    let arrival = |&own: &u8| Some((own, top + panel.spans[panel.row(own)?].arrival()));
    benches.iter().filter_map(arrival).collect()
}

/// What a bench answered to a message told.
fn answer(panel: &Panel, told: &Told, to: u8) -> Option<Result<Word, u8>> {
    let bench = panel.run.benches.iter().find(|bench| bench.own == to)?;
    let beat = bench.beats.iter().find(|beat| beat.beat == told.tell.beat)?;
    let same = |take: &&Take| take.teller == Some(told.tell.teller) && take.message == told.tell.message;
    beat.takes.iter().find(same).map(|take| take.answer)
}

fn spoken(answer: Option<Result<Word, u8>>) -> String {
    match answer {
        Some(Ok(Word::First)) => "first".to_string(),
        Some(Ok(Word::Second)) => "second".to_string(),
        Some(Ok(Word::Known)) => "known".to_string(),
        Some(Err(number)) => format!("refused by {number}"),
        None => "not answered".to_string(),
    }
}

/// From the message that goes astray to the words on it at each bench that it does not reach.
fn draw_astray(svg: &mut Svg, panel: &Panel, columns: &Columns, place: usize, top: i32) {
    let astray = &panel.astray[place];
    let Some(column) = layout::column(panel.schedule, astray.beat) else {
        return;
    };
    let Some(from) = start(panel, astray, column) else { return };
    let (text, x) = (columns.text(column), columns.astray(column, astray.lane));
    for y in astray.to.iter().filter_map(|&to| end(panel, place, to, column)) {
        let (from, y) = (top + from, top + y);
        let course = [(text, from), (x, from), (x, y), (text, y)];
        svg.titled(&message(astray.message), |svg| svg.course(&course, BROKEN));
    }
}

/// How far down the message stands: at its mark where it was made or passed on.
fn start(panel: &Panel, astray: &Astray, column: usize) -> Option<i32> {
    let row = panel.row(astray.from)?;
    let (cell, span) = (panel.rows[row].cells.get(column)?, panel.spans[row]);
    let passing = astray.passing();
    let is_it = |mark: &Mark| match &passing {
        Some(passing) => mark == passing,
        None => matches!(mark.sign, Sign::Vote | Sign::Proposal),
    };
    cell.iter().position(is_it).map(|mark| span.middle(cell, mark))
}

/// How far down the words on it stand at a bench that it does not reach: the messages missed there in this beat have theirs in
/// one order.
fn end(panel: &Panel, place: usize, to: u8, column: usize) -> Option<i32> {
    let row = panel.row(to)?;
    let (cell, span) = (panel.rows[row].cells.get(column)?, panel.spans[row]);
    let before = &panel.astray[..place];
    let before = before
        .iter()
        .filter(|other| other.beat == panel.astray[place].beat && other.to.contains(&to))
        .count();
    let mut words = (0..cell.len()).filter(|&mark| matches!(cell[mark].sign, Sign::Lost | Sign::Sent));
    words.nth(before).map(|mark| span.middle(cell, mark))
}
