//! A row: a rule-keeper's, a rule-breaker's, or the one on the majority.
use super::layout::{Columns, Span, MARGIN};
use super::mark::{self, Cell};
use super::svg::{bold, dashed, pen, regular, Svg, BLACK, FAINT, GREY, WHITE};
use crate::volume::schedule::Presence;

#[derive(Clone, Copy, PartialEq, Eq, Debug)]
pub enum Who {
    Keeper(u8),
    Breaker(u8),
    Majority,
}

pub struct Row {
    pub who: Who,
    /// Of a rule-keeper: what it does at each beat.
    pub presence: Vec<Presence>,
    pub cells: Vec<Cell>,
}

impl Row {
    /// What lies below all lines and marks; `top` is that of the first row.
    pub fn draw_ground(&self, svg: &mut Svg, columns: &Columns, span: Span, top: i32) {
        let (y, width) = (top + span.top, columns.end() - MARGIN);
        if matches!(self.who, Who::Breaker(_)) {
            svg.rect((MARGIN, y), (width, span.height), FAINT, None);
        }
        let bottom = top + span.bottom();
        svg.line((MARGIN, bottom), (MARGIN + width, bottom), pen(GREY, 1));
    }

    pub fn draw_bars(&self, svg: &mut Svg, columns: &Columns, span: Span, top: i32) {
        for (column, &presence) in self.presence.iter().enumerate() {
            let (left, right) = (columns.left(column), columns.right(column));
            bar(svg, (left, top + span.top + 4), right - left, presence);
        }
    }

    /// The label and what stands in the cells.
    pub fn draw(&self, svg: &mut Svg, columns: &Columns, span: Span, top: i32) {
        self.draw_label(svg, top + span.top, span.height);
        let name = self.name();
        for &x in columns.labels_again() {
            svg.text((x + 5, top + span.top + 20), regular(mark::LETTERS, GREY), &name);
        }
        for (column, cell) in self.cells.iter().enumerate() {
            for (place, mark) in cell.iter().enumerate() {
                mark::draw(svg, (columns.text(column), top + span.mark(cell, place)), mark);
            }
        }
    }

    fn name(&self) -> String {
        match self.who {
            Who::Keeper(own) | Who::Breaker(own) => format!("bench {own}"),
            Who::Majority => "majority".to_string(),
        }
    }

    fn draw_label(&self, svg: &mut Svg, y: i32, height: i32) {
        let what = match self.who {
            Who::Keeper(_) => "keeps the rules",
            Who::Breaker(_) => "BREAKS THE RULES",
            Who::Majority => "keepers to breakers",
        };
        if matches!(self.who, Who::Breaker(_)) {
            svg.rect((MARGIN, y + 1), (6, height - 2), "url(#falling)", Some(pen(BLACK, 1)));
        }
        svg.text((MARGIN + 12, y + 20), bold(13, BLACK), &self.name());
        svg.text((MARGIN + 12, y + 35), regular(10, BLACK), what);
    }
}

/// When a bench is awake, begins without acting, or sleeps.
pub fn bar(svg: &mut Svg, (x, y): (i32, i32), width: i32, presence: Presence) {
    match presence {
        Presence::Awake => svg.rect((x, y), (width, 6), BLACK, None),
        Presence::Begins => {
            svg.rect((x, y), (width, 6), WHITE, Some(pen(BLACK, 1)));
            svg.rect((x, y), (width, 6), "url(#rising)", None);
        }
        Presence::Skips => svg.line((x, y + 3), (x + width, y + 3), dashed(BLACK, 1, "1 5")),
    }
}
