//! A mark: one line of a cell, drawn the same way in every cell and in the legend.
use super::svg::{bold, dashed, pen, regular, Pen, Svg, Type, BLACK, GREY, RED, WHITE};
use super::words::{cut, width};

/// The width that one character is given.
pub const CHARACTER: i32 = 7;
/// How many characters every cell has room for.
pub const ROOM: usize = 18;
/// How many the words on what goes astray may have, for which a column is made wider.
const WIDE: usize = 26;
/// Between the broken line of what is passed on and its words.
const PASSING: i32 = 5;
/// The size of letters in a cell.
pub const LETTERS: i32 = 11;

/// What a mark says, in the order of the legend.
#[derive(Clone, Copy, PartialEq, Eq, PartialOrd, Ord, Debug)]
pub enum Sign {
    Awake,
    Begins,
    Asleep,
    Proposal,
    Vote,
    NoVote,
    Lock,
    Grade,
    Snapshot,
    Decision,
    Conflict,
    Stands,
    Parted,
    Equivocator,
    Aside,
    Refused,
    /// Which of several stories, from 1 on; 0 for the only one.
    Told(u8),
    Stories,
    Forged,
    Nobody,
    Lost,
    Sent,
    Comes,
    Passes,
    Counted,
    Breach,
}

#[derive(Clone, PartialEq, Eq, Debug)]
pub struct Mark {
    pub sign: Sign,
    /// What is written.
    pub text: String,
    /// What is shown when it is pointed at: the same in full.
    pub whole: String,
}

/// The marks of one row in one column, from the top down.
pub type Cell = Vec<Mark>;

impl Mark {
    /// The text is cut where it is wider than its cell.
    pub fn new(sign: Sign, text: &str, whole: String) -> Mark {
        let text = cut(text, sign.room());
        Mark { sign, text, whole }
    }

    /// How many characters wide it is, with its shape.
    pub fn extent(&self) -> usize {
        self.sign.shape() + width(&self.text)
    }

    /// How wide its text is, in pixels.
    fn text_width(&self) -> i32 {
        width(&self.text) as i32 * CHARACTER
    }
}

/// Whose cell it is: a bench at a beat.
#[derive(Clone, Copy, PartialEq, Eq, Debug)]
pub struct Here {
    pub own: u8,
    pub beat: u32,
}

impl Here {
    /// A mark that says in full where it stands.
    pub fn mark(self, sign: Sign, text: &str, whole: &str) -> Mark {
        Mark::new(sign, text, format!("bench {}, beat {}: {whole}", self.own, self.beat))
    }
}

impl Sign {
    /// How many characters it has room for, beside its shape.
    pub fn room(self) -> usize {
        match self {
            Sign::Lost | Sign::Sent | Sign::Comes | Sign::Passes => WIDE - self.shape(),
            _ => ROOM - self.shape(),
        }
    }

    /// How many characters wide its shape is.
    fn shape(self) -> usize {
        match self {
            Sign::Snapshot | Sign::Breach => 3,
            Sign::Told(_) => 4,
            Sign::Proposal | Sign::Vote | Sign::Decision | Sign::Conflict | Sign::Parted => 2,
            Sign::Lost | Sign::Sent | Sign::Comes => 2,
            Sign::Passes => 1,
            _ => 0,
        }
    }

    pub fn height(self) -> i32 {
        match self {
            Sign::Proposal | Sign::Vote | Sign::Told(_) | Sign::Parted => 21,
            Sign::Decision => 23,
            Sign::Conflict => 41,
            _ => 15,
        }
    }

    /// Where, below its top, a line from outside meets it.
    pub fn middle(self) -> i32 {
        self.height() / 2
    }
}

pub fn height(cell: &[Mark]) -> i32 {
    cell.iter().map(|mark| mark.sign.height()).sum()
}

/// How the line of a story is drawn.
pub fn story_pen(story: u8) -> Pen {
    match story {
        0 | 1 => pen(BLACK, 1),
        2 => dashed(BLACK, 1, "7 3"),
        _ => dashed(BLACK, 1, "2 2"),
    }
}

/// Draws a mark with its top left corner here.
pub fn draw(svg: &mut Svg, at: (i32, i32), mark: &Mark) {
    svg.titled(&mark.whole, |svg| match mark.sign {
        Sign::Proposal => boxed(svg, at, mark, WHITE, dashed(BLACK, 1, "3 2"), regular(LETTERS, BLACK)),
        Sign::Vote => boxed(svg, at, mark, WHITE, pen(BLACK, 1), bold(LETTERS, BLACK)),
        Sign::Parted => boxed(svg, at, mark, WHITE, pen(BLACK, 2), bold(LETTERS, BLACK)),
        Sign::Told(story) => told(svg, at, mark, story),
        Sign::Decision => flag(svg, at, mark),
        Sign::Conflict => conflict(svg, at, mark),
        Sign::Snapshot => snapshot(svg, at, mark),
        Sign::Breach => breach(svg, at, mark),
        Sign::Lost | Sign::Sent | Sign::Comes => astray(svg, at, mark),
        Sign::Passes => written(svg, at, PASSING, regular(LETTERS, BLACK), &mark.text),
        Sign::Equivocator => written(svg, at, 0, bold(LETTERS, BLACK), &mark.text),
        Sign::Grade | Sign::NoVote | Sign::Asleep | Sign::Begins => written(svg, at, 0, regular(LETTERS, GREY), &mark.text),
        _ => written(svg, at, 0, regular(LETTERS, BLACK), &mark.text),
    });
}

fn written(svg: &mut Svg, (x, y): (i32, i32), indent: i32, letters: Type, text: &str) {
    svg.text((x + indent, y + 11), letters, text);
}

fn boxed(svg: &mut Svg, (x, y): (i32, i32), mark: &Mark, fill: &str, outline: Pen, letters: Type) {
    svg.rect((x, y + 2), (mark.text_width() + 10, 16), fill, Some(outline));
    svg.text((x + 5, y + 14), letters, &mark.text);
}

/// The hatching of a story stands beside its text, which stays on white.
fn told(svg: &mut Svg, (x, y): (i32, i32), mark: &Mark, story: u8) {
    let fill = match story {
        0 => return boxed(svg, (x, y), mark, WHITE, story_pen(0), regular(LETTERS, BLACK)),
        1 => "url(#rising)",
        2 => "url(#falling)",
        _ => "url(#level)",
    };
    svg.rect((x, y + 2), (14, 16), fill, Some(pen(BLACK, 1)));
    boxed(svg, (x + 14, y), mark, WHITE, story_pen(story), regular(LETTERS, BLACK));
}

fn flag(svg: &mut Svg, (x, y): (i32, i32), mark: &Mark) {
    let right = x + mark.text_width() + 13;
    let (top, bottom) = (y + 2, y + 20);
    let points = [(x, top), (right, top), (right - 6, y + 11), (right, bottom), (x, bottom)];
    svg.shape(&points, BLACK, pen(BLACK, 1));
    svg.text((x + 4, y + 15), bold(LETTERS, WHITE), &mark.text);
}

fn conflict(svg: &mut Svg, (x, y): (i32, i32), mark: &Mark) {
    let width = mark.text_width().max(10 * CHARACTER) + 9;
    svg.rect((x + 1, y + 4), (width, 33), WHITE, Some(pen(RED, 3)));
    svg.text((x + 6, y + 17), bold(LETTERS, RED), &mark.text);
    svg.cross((x + 10, y + 28), 4, pen(RED, 2));
    svg.text((x + 20, y + 32), bold(LETTERS, RED), "CONFLICT");
}

/// A small camera.
fn snapshot(svg: &mut Svg, (x, y): (i32, i32), mark: &Mark) {
    svg.rect((x + 3, y + 1), (5, 3), BLACK, None);
    svg.rect((x, y + 3), (11, 8), WHITE, Some(pen(BLACK, 1)));
    svg.circle((x + 5, y + 7), 2, WHITE, pen(BLACK, 1));
    written(svg, (x, y), 16, regular(LETTERS, BLACK), &mark.text);
}

fn breach(svg: &mut Svg, (x, y): (i32, i32), mark: &Mark) {
    svg.shape(&[(x, y + 12), (x + 6, y + 1), (x + 12, y + 12)], WHITE, pen(RED, 2));
    svg.line((x + 6, y + 5), (x + 6, y + 10), pen(RED, 1));
    written(svg, (x, y), 18, bold(LETTERS, RED), &mark.text);
}

fn astray(svg: &mut Svg, (x, y): (i32, i32), mark: &Mark) {
    match mark.sign {
        Sign::Lost => svg.cross((x + 5, y + 7), 3, pen(BLACK, 2)),
        Sign::Sent => svg.circle((x + 5, y + 7), 3, WHITE, pen(BLACK, 1)),
        _ => svg.circle((x + 5, y + 7), 3, BLACK, pen(BLACK, 1)),
    }
    written(svg, (x, y), 12, regular(LETTERS, BLACK), &mark.text);
}
