//! The legend: every mark that the picture uses, drawn as it is drawn there, and what it says in words.
use super::layout::MARGIN;
use super::lines::{arrowhead, BROKEN};
use super::mark::{self, story_pen, Mark, Sign};
use super::prose::{paragraph, write};
use super::rows::bar;
use super::signs;
use super::svg::{bold, pen, regular, Svg, BLACK, RED, WHITE};
use crate::volume::schedule::Presence;
use std::collections::BTreeSet;

/// The width of an entry, and how much of it is the sample's.
const ENTRY: i32 = 680;
const SAMPLE: i32 = 190;
/// The width of a sample of a bar.
const BAR: i32 = 120;
const GENERAL: &str = "A log is written by the names of its blocks, the oldest first: [5 6*3] is block 5 with one entry and \
    block 6 with three, [] is the empty log. Where a text is cut (…), point at it to read it whole. GA v is the agreement of \
    view v. In a rule-keeper's cell stand, from the top down: that it is not awake; what comes to it and what it learns in its \
    gathering; what it passes on, where a broken line starts; the grade that its act reads, its lock, what it makes, what it \
    decides and the snapshot it takes; what others send it in this beat, where a broken line ends; where a premise fails. What \
    a rule-keeper makes or passes on comes to each other one in the next beat at which that one is awake; it is drawn only where \
    it is lost, or comes at a beat that the sketch says.";

/// Draws the legend from `top` down, in as many columns as there is width for, and says where it ends.
pub fn draw(svg: &mut Svg, signs: &BTreeSet<Sign>, width: i32, top: i32) -> i32 {
    svg.text((MARGIN, top + 16), bold(15, BLACK), "What the marks say");
    let mut y = paragraph(svg, GENERAL, regular(11, BLACK), width.min(2 * ENTRY), top + 24) + 10;
    let signs = entries(signs);
    let across = ((width - MARGIN) / ENTRY).clamp(1, 3) as usize;
    let down = signs.len().div_ceil(across);
    let start = y;
    for (place, column) in signs.chunks(down.max(1)).enumerate() {
        let x = MARGIN + ENTRY * place as i32;
        let end = column.iter().fold(start, |top, &sign| entry(svg, sign, (x, top)));
        y = y.max(end);
    }
    y
}

/// The marks to be explained: the stories of what is told have an entry of their own.
fn entries(signs: &BTreeSet<Sign>) -> Vec<Sign> {
    let plain = |sign: &Sign| match sign {
        Sign::Told(_) => Sign::Told(0),
        other => *other,
    };
    let entries: BTreeSet<Sign> = signs.iter().map(plain).collect();
    entries.into_iter().collect()
}

/// One mark and its words; says where it ends.
fn entry(svg: &mut Svg, sign: Sign, (x, y): (i32, i32)) -> i32 {
    sample(svg, sign, (x, y));
    let end = write(
        svg,
        signs::words(sign),
        regular(mark::LETTERS, BLACK),
        (x + SAMPLE, y),
        ENTRY - SAMPLE - 20,
    );
    end.max(y + sign.height()) + 7
}

/// The mark as it is drawn in the picture, with the line that belongs to it.
fn sample(svg: &mut Svg, sign: Sign, (x, y): (i32, i32)) {
    match sign {
        Sign::Awake => bar(svg, (x, y + 5), BAR, Presence::Awake),
        Sign::Begins => bar(svg, (x, y + 5), BAR, Presence::Begins),
        Sign::Asleep => bar(svg, (x, y + 5), BAR, Presence::Skips),
        Sign::Stories => stories(svg, (x, y)),
        Sign::Told(_) => {
            svg.course(&[(x + 34, y + 10), (x + 6, y + 10), (x + 6, y - 2)], story_pen(0));
            svg.line((x + 20, y + 10), (x + 20, y - 2), story_pen(0));
            arrowhead(svg, (x + 6, y + 1), BLACK);
            arrowhead(svg, (x + 20, y + 1), WHITE);
            drawn(svg, sign, (x + 34, y));
        }
        Sign::Lost | Sign::Sent | Sign::Passes => {
            svg.line((x, y + 7), (x + 18, y + 7), BROKEN);
            drawn(svg, sign, (x + 18, y));
        }
        Sign::Conflict => {
            svg.course(&[(x + 20, y + 18), (x + 8, y + 18), (x + 8, y)], pen(RED, 3));
            drawn(svg, sign, (x + 20, y));
        }
        _ => drawn(svg, sign, (x, y)),
    }
}

fn drawn(svg: &mut Svg, sign: Sign, at: (i32, i32)) {
    mark::draw(svg, at, &Mark::new(sign, signs::sample(sign), signs::words(sign).to_string()));
}

/// The hatchings and lines of the first, the second and any further story.
fn stories(svg: &mut Svg, (x, y): (i32, i32)) {
    for (place, fill) in ["url(#rising)", "url(#falling)", "url(#level)"].into_iter().enumerate() {
        let left = x + 44 * place as i32;
        svg.rect((left, y), (14, 16), fill, Some(pen(BLACK, 1)));
        svg.line((left + 14, y + 8), (left + 36, y + 8), story_pen(place as u8 + 1));
    }
}
