//! The band on top of each run: the views, the beats, and what the calendar has an act do at each.
use super::layout::{Columns, LABEL, MARGIN};
use super::mark::LETTERS;
use super::svg::{bold, pen, regular, Svg, BLACK, FAINT, GREY, PALE, WHITE};
use crate::history::message::LAST_VIEW;

pub const HEIGHT: i32 = 66;
/// The height of the views' part.
const VIEWS: i32 = 20;

pub fn draw(svg: &mut Svg, columns: &Columns, first_beat: u32, top: i32) {
    for (place, label) in ["view", "beat", "phase"].into_iter().enumerate() {
        svg.text((MARGIN + 4, top + 14 + 18 * place as i32), regular(LETTERS, GREY), label);
    }
    for column in 0..columns.count() {
        let beat = first_beat + column as u32;
        if column == 0 || beat.is_multiple_of(4) {
            draw_view(svg, columns, beat, column, top);
        }
        let [first, second] = phase(beat);
        let x = columns.text(column);
        svg.text((x, top + 32), bold(LETTERS, BLACK), &format!("{beat}{}", place(beat)));
        svg.text((x, top + 47), regular(LETTERS, BLACK), first);
        svg.text((x, top + 60), regular(LETTERS, BLACK), second);
    }
    let (left, right, bottom) = (MARGIN, columns.end(), top + HEIGHT);
    svg.line((left, bottom), (right, bottom), pen(BLACK, 2));
}

/// The view that begins in this column, or goes on in the first one.
fn draw_view(svg: &mut Svg, columns: &Columns, beat: u32, column: usize, top: i32) {
    let last = (column + 3 - (beat % 4) as usize).min(columns.count() - 1);
    let (left, right) = (columns.left(column), columns.right(last));
    let fill = if (beat / 4).is_multiple_of(2) { FAINT } else { WHITE };
    svg.rect((left, top), (right - left, VIEWS), fill, Some(pen(BLACK, 1)));
    let words = match beat / 4 {
        view if view > LAST_VIEW => "after the last view".to_string(),
        view => format!("view {view}"),
    };
    svg.text((columns.text(column), top + 14), bold(LETTERS, BLACK), &words);
}

/// Which beat of its view it is.
fn place(beat: u32) -> &'static str {
    match beat % 4 {
        _ if beat / 4 > LAST_VIEW => "",
        0 => " = 4v",
        1 => " = 4v+1",
        2 => " = 4v+2",
        _ => " = 4v+3",
    }
}

/// The calendar's words for a beat, in two lines.
fn phase(beat: u32) -> [&'static str; 2] {
    match beat % 4 {
        2 if beat / 4 > LAST_VIEW => ["decide", ""],
        _ if beat / 4 > LAST_VIEW => ["", ""],
        0 => ["propose", ""],
        1 => ["vote", ""],
        // There is no view before view 0 to decide by.
        2 if beat == 2 => ["take snapshot one", ""],
        2 => ["decide, and", "take snapshot one"],
        _ => ["take snapshot two", ""],
    }
}

/// The beats once more, below the rows; says where that ends.
pub fn draw_again(svg: &mut Svg, columns: &Columns, first_beat: u32, top: i32) -> i32 {
    svg.text((MARGIN + 4, top + 14), regular(LETTERS, GREY), "beat");
    for column in 0..columns.count() {
        let beat = first_beat + column as u32;
        svg.text(
            (columns.text(column), top + 14),
            bold(LETTERS, BLACK),
            &format!("{beat}{}", place(beat)),
        );
    }
    top + 20
}

/// Upright lines between the columns, stronger between views, down to `bottom`.
pub fn draw_grid(svg: &mut Svg, columns: &Columns, first_beat: u32, top: i32, bottom: i32) {
    for column in 0..columns.count() {
        let next = first_beat + column as u32 + 1;
        let edge = column + 1 == columns.count() || next.is_multiple_of(4);
        let (x, colour) = (columns.right(column), if edge { GREY } else { PALE });
        svg.line((x, top + VIEWS), (x, bottom), pen(colour, 1));
    }
    for column in (0..columns.count()).filter(|column| (first_beat + *column as u32).is_multiple_of(4)) {
        svg.line(
            (columns.left(column), top + VIEWS),
            (columns.left(column), bottom),
            pen(GREY, 1),
        );
    }
    svg.line((MARGIN + LABEL, top), (MARGIN + LABEL, bottom), pen(BLACK, 1));
}
