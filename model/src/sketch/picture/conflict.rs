//! Decided logs that conflict: which they are, and the line that joins the first two.
use super::layout::{Columns, Span};
use super::svg::{pen, Svg, RED};
use crate::history::message::{conflict, Log};
use crate::sketch::story::Run;
use crate::volume::promise::{Broken, Decision};

/// The decided logs of one run.
pub struct Conflicts<'a> {
    decided: Vec<&'a Log>,
}

impl<'a> Conflicts<'a> {
    pub fn of(run: &'a Run) -> Conflicts<'a> {
        let acts = run
            .benches
            .iter()
            .flat_map(|bench| &bench.beats)
            .filter_map(|beat| beat.act.as_ref());
        let mut decided: Vec<&Log> = acts.filter_map(|act| act.decided.as_ref()).collect();
        decided.sort();
        decided.dedup();
        Conflicts { decided }
    }

    /// Whether this log conflicts with one of them.
    pub fn has(&self, log: &Log) -> bool {
        self.decided.iter().any(|other| conflict(log, other))
    }
}

/// The conflict that the run tells of: the two decisions and their logs.
pub fn first(run: &Run) -> Option<([Decision; 2], &[Log; 2])> {
    run.broken.iter().find_map(|broken| match broken {
        Broken::Conflict { one, other, logs } => Some(([*one, *other], logs)),
        Broken::Standing { .. } | Broken::Parted { .. } => None,
    })
}

/// One end of the line: the column, the row, and how far down the mark stands.
#[derive(Clone, Copy)]
pub struct End {
    pub column: usize,
    pub row: Span,
    pub y: i32,
}

/// From mark to mark beside the columns' text and below the rows' marks, so that it crosses none.
pub fn join(svg: &mut Svg, columns: &Columns, [one, other]: [End; 2], top: i32) {
    let lane = |end: End| columns.conflict(end.column);
    let text = |end: End| columns.text(end.column);
    let pass = top + one.row.gutter();
    let mut course = vec![(text(one), top + one.y), (lane(one), top + one.y)];
    if one.column != other.column {
        course.extend([(lane(one), pass), (lane(other), pass)]);
    }
    course.extend([(lane(other), top + other.y), (text(other), top + other.y)]);
    svg.titled("the two decided logs conflict", |svg| svg.course(&course, pen(RED, 3)));
}
