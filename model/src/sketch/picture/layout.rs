//! The places: where each column and each row stands. Columns are the same for all runs, so that runs can be compared.
use super::mark::{height, Cell, Mark, CHARACTER, ROOM};
use crate::sketch::schedule::Schedule;

/// After so many columns the rows' names stand again, where a view begins, in a narrow column of their own.
const UNLABELLED: usize = 16;
const LABEL_AGAIN: i32 = 72;
/// Around the picture.
pub const MARGIN: i32 = 16;
/// The width of the rows' labels.
pub const LABEL: i32 = 152;
/// The width that one upright line is given.
const LANE: i32 = 11;
/// Left and right in a column.
const SIDE: i32 = 5;
/// From the top of a row to its first mark: the bar of presence stands there.
const HEAD: i32 = 15;
/// Below the last mark of a row: the line of a conflict passes there.
const FOOT: i32 = 9;
/// The least height of a row, for its label.
const LEAST: i32 = 44;

/// What a column needs: room for the text of its cells, and its upright lines.
#[derive(Clone, Copy, PartialEq, Eq, Debug)]
pub struct Lanes {
    /// How many characters of text.
    pub text: usize,
    /// Of messages lost or sent for another beat; nearest to the text.
    pub astray: usize,
    /// Of what rule-breakers tell.
    pub told: usize,
    /// Of a conflict; furthest from the text.
    pub conflict: usize,
}

/// No lines, and text as every cell has it.
impl Default for Lanes {
    fn default() -> Lanes {
        Lanes {
            text: ROOM,
            astray: 0,
            told: 0,
            conflict: 0,
        }
    }
}

impl Lanes {
    /// Room for what either needs.
    pub fn or(self, other: Lanes) -> Lanes {
        Lanes {
            text: self.text.max(other.text),
            astray: self.astray.max(other.astray),
            told: self.told.max(other.told),
            conflict: self.conflict.max(other.conflict),
        }
    }

    fn text_width(self) -> i32 {
        self.text as i32 * CHARACTER
    }

    fn width(self) -> i32 {
        match (self.astray + self.told + self.conflict) as i32 {
            0 => 0,
            lanes => LANE * lanes + SIDE,
        }
    }
}

/// The columns, one for each beat.
pub struct Columns {
    lanes: Vec<Lanes>,
    /// Where each begins and ends.
    sides: Vec<(i32, i32)>,
    /// Where the rows' names stand again, in a wide picture.
    labels_again: Vec<i32>,
}

impl Columns {
    pub fn new(first_beat: u32, lanes: Vec<Lanes>) -> Columns {
        let (mut sides, mut labels_again) = (vec![], vec![]);
        let (mut left, mut since) = (MARGIN + LABEL, 0);
        for (beat, lanes) in (first_beat..).zip(&lanes) {
            if since >= UNLABELLED && beat.is_multiple_of(4) {
                labels_again.push(left);
                (left, since) = (left + LABEL_AGAIN, 0);
            }
            let right = left + 2 * SIDE + lanes.width() + lanes.text_width();
            sides.push((left, right));
            (left, since) = (right, since + 1);
        }
        Columns {
            lanes,
            sides,
            labels_again,
        }
    }

    pub fn count(&self) -> usize {
        self.lanes.len()
    }

    pub fn labels_again(&self) -> &[i32] {
        &self.labels_again
    }

    pub fn left(&self, column: usize) -> i32 {
        self.sides[column].0
    }

    pub fn right(&self, column: usize) -> i32 {
        self.sides[column].1
    }

    /// Where the last column ends.
    pub fn end(&self) -> i32 {
        self.sides.last().map_or(MARGIN + LABEL, |(_, right)| *right)
    }

    /// Where the text of a column's cells begins.
    pub fn text(&self, column: usize) -> i32 {
        self.right(column) - SIDE - self.lanes[column].text_width()
    }

    pub fn astray(&self, column: usize, lane: usize) -> i32 {
        self.lane(column, lane)
    }

    pub fn told(&self, column: usize, lane: usize) -> i32 {
        self.lane(column, self.lanes[column].astray + lane)
    }

    pub fn conflict(&self, column: usize) -> i32 {
        self.lane(column, self.lanes[column].astray + self.lanes[column].told)
    }

    /// The upright line so many before the text.
    fn lane(&self, column: usize, lane: usize) -> i32 {
        self.text(column) - 9 - LANE * lane as i32
    }
}

/// The column of a beat.
pub fn column(schedule: &Schedule, beat: u32) -> Option<usize> {
    let within = (schedule.first_beat..=schedule.last_beat).contains(&beat);
    within.then(|| (beat - schedule.first_beat) as usize)
}

/// Where a row stands, from the top of its panel's first row.
#[derive(Clone, Copy, PartialEq, Eq, Debug)]
pub struct Span {
    pub top: i32,
    pub height: i32,
}

impl Span {
    pub fn bottom(self) -> i32 {
        self.top + self.height
    }

    /// Where a mark of a cell in this row has its top.
    pub fn mark(self, cell: &[Mark], place: usize) -> i32 {
        self.top + HEAD + height(&cell[..place.min(cell.len())])
    }

    /// Where lines meet a mark of a cell in this row.
    pub fn middle(self, cell: &[Mark], place: usize) -> i32 {
        self.mark(cell, place) + cell.get(place).map_or(0, |mark| mark.sign.middle())
    }

    /// Where lines from other rows arrive.
    pub fn arrival(self) -> i32 {
        self.top + HEAD + 6
    }

    /// Where a line can pass along the row below all its marks.
    pub fn gutter(self) -> i32 {
        self.bottom() - 5
    }
}

/// Rows one below the other, each as high as its fullest cell asks for.
pub fn spans<'a>(rows: impl Iterator<Item = &'a [Cell]>) -> Vec<Span> {
    let mut top = 0;
    let span = |cells: &[Cell]| {
        let fullest = cells.iter().map(|cell| height(cell)).max().unwrap_or(0);
        let span = Span {
            top,
            height: (HEAD + fullest + FOOT).max(LEAST),
        };
        top += span.height;
        span
    };
    rows.map(span).collect()
}
