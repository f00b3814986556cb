//! One run: its heading, the band, its rows with the lines between them, the notes and the verdict.
use super::astray::{astray, Astray};
use super::band;
use super::breakers;
use super::conflict::{self, End};
use super::keepers::Source;
use super::layout::{spans, Columns, Lanes, Span};
use super::lines;
use super::mark::{Mark, Sign};
use super::outcome;
use super::premises::{majority, notes, Note};
use super::prose::paragraph;
use super::rows::{Row, Who};
use super::svg::{bold, Svg, BLACK};
use super::told::{told, Told};
use crate::history::bench::Rules;
use crate::sketch::schedule::Schedule;
use crate::sketch::story::{Run, Story};
use crate::sketch::words;
use crate::volume::schedule::Presence;
use std::collections::BTreeSet;

/// The height of the rows from which on the beats are written below them too.
const TALL: i32 = 800;

pub struct Panel<'a> {
    pub schedule: &'a Schedule,
    pub run: &'a Run,
    pub rows: Vec<Row>,
    pub spans: Vec<Span>,
    pub told: Vec<Told<'a>>,
    pub astray: Vec<Astray<'a>>,
    notes: Vec<Note>,
    columns: usize,
}

impl<'a> Panel<'a> {
    pub fn new(story: &'a Story, run: &'a Run, columns: usize) -> Panel<'a> {
        let schedule = &story.schedule;
        let breakers = breakers(schedule);
        let (astray, notes) = (astray(schedule, run), notes(schedule, run));
        let source = Source {
            schedule,
            run,
            astray: &astray,
            notes: &notes,
        };
        let mut rows = source.rows(columns);
        let (cells, told) = told(schedule, &breakers, columns);
        rows.extend(breakers.iter().zip(cells).map(|(&own, cells)| Row {
            who: Who::Breaker(own),
            presence: vec![],
            cells,
        }));
        rows.push(Row {
            who: Who::Majority,
            presence: vec![],
            cells: majority(schedule, run, &notes, columns),
        });
        let spans = spans(rows.iter().map(|row| row.cells.as_slice()));
        Panel {
            schedule,
            run,
            rows,
            spans,
            told,
            astray,
            notes,
            columns,
        }
    }

    /// What each column needs: room for its widest mark, and its upright lines.
    pub fn lanes(&self) -> Vec<Lanes> {
        let lanes = |column: usize| {
            let beat = self.schedule.first_beat + column as u32;
            let ends = conflict::first(self.run).map(|(ends, _)| ends.map(|end| end.beat));
            let marks = self.rows.iter().flat_map(|row| &row.cells[column]);
            Lanes {
                text: marks.map(Mark::extent).max().unwrap_or(0),
                astray: self.astray.iter().filter(|astray| astray.beat == beat).count(),
                told: self.told.iter().filter(|told| told.column == column).count(),
                conflict: ends.is_some_and(|ends| ends.contains(&beat)).into(),
            }
        };
        (0..self.columns).map(lanes).collect()
    }

    /// Every mark that stands in its rows.
    pub fn signs(&self) -> BTreeSet<Sign> {
        let cells = self.rows.iter().flat_map(|row| &row.cells).flatten().map(|mark| mark.sign);
        let awake = self
            .rows
            .iter()
            .flat_map(|row| &row.presence)
            .any(|presence| *presence == Presence::Awake);
        cells.chain(awake.then_some(Sign::Awake)).collect()
    }

    /// Draws it from `top` down, in `width`, and says where it ends.
    pub fn draw(&self, svg: &mut Svg, columns: &Columns, width: i32, top: i32) -> i32 {
        let band_top = paragraph(svg, &heading(self.run.rules), bold(15, BLACK), width, top) + 8;
        let rows_top = band_top + band::HEIGHT;
        let bottom = rows_top + self.spans.last().map_or(0, |span| span.bottom());
        let placed = || self.rows.iter().zip(&self.spans);
        placed().for_each(|(row, &span)| row.draw_ground(svg, columns, span, rows_top));
        band::draw_grid(svg, columns, self.schedule.first_beat, band_top, bottom);
        band::draw(svg, columns, self.schedule.first_beat, band_top);
        placed().for_each(|(row, &span)| row.draw_bars(svg, columns, span, rows_top));
        lines::draw(svg, self, columns, rows_top);
        if let Some(ends) = self.conflict_ends() {
            conflict::join(svg, columns, ends, rows_top);
        }
        placed().for_each(|(row, &span)| row.draw(svg, columns, span, rows_top));
        let bottom = match bottom - rows_top > TALL {
            true => band::draw_again(svg, columns, self.schedule.first_beat, bottom),
            false => bottom,
        };
        outcome::draw(svg, self.run, &self.notes, width, bottom + 8)
    }

    fn conflict_ends(&self) -> Option<[End; 2]> {
        let ([one, other], _) = conflict::first(self.run)?;
        Some([self.end(one.bench, one.beat)?, self.end(other.bench, other.beat)?])
    }

    /// Where the decision of a bench at a beat stands.
    fn end(&self, own: u8, beat: u32) -> Option<End> {
        let column = beat.checked_sub(self.schedule.first_beat)? as usize;
        let place = self.row(own)?;
        let (row, cell) = (self.spans[place], self.rows[place].cells.get(column)?);
        let mark = cell
            .iter()
            .position(|mark| matches!(mark.sign, Sign::Conflict | Sign::Decision))?;
        let y = row.middle(cell, mark);
        Some(End { column, row, y })
    }

    /// Which row is this bench's.
    pub fn row(&self, own: u8) -> Option<usize> {
        let is_its = |row: &Row| row.who == Who::Keeper(own) || row.who == Who::Breaker(own);
        self.rows.iter().position(is_its)
    }
}

fn heading(rules: Rules) -> String {
    match rules {
        Rules::Paper => "By the rules (the proved code)".to_string(),
        mistake => format!("With the mistake: {} (the model)", words::rules(mistake)),
    }
}
