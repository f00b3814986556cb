//! The picture of a story, as one SVG file: the beats across, the benches down, for each run a panel, and a legend.
mod acted;
mod astray;
mod band;
mod conflict;
mod gathered;
mod keepers;
mod layout;
mod legend;
mod lines;
mod mark;
mod outcome;
mod panel;
mod premises;
mod prose;
mod rows;
mod signs;
mod svg;
#[cfg(test)]
mod tests;
mod told;
mod words;

use self::layout::{Columns, Lanes, MARGIN};
use self::panel::Panel;
use self::prose::paragraph;
use self::svg::{bold, pen, regular, Svg, BLACK};
use self::words::{counted, set};
use super::schedule::Schedule;
use super::story::Story;
use std::collections::BTreeSet;

/// The least width: notes and legend need it.
const LEAST_WIDTH: i32 = 960;

/// The picture of a story. The same story always gives the same text.
pub fn draw(story: &Story) -> String {
    let schedule = &story.schedule;
    let beats = schedule.last_beat.saturating_sub(schedule.first_beat) as usize + 1;
    let panels: Vec<Panel> = story.runs.iter().map(|run| Panel::new(story, run, beats)).collect();
    let lanes = panels.iter().fold(vec![Lanes::default(); beats], |lanes, panel| {
        lanes
            .into_iter()
            .zip(panel.lanes())
            .map(|(some, more)| some.or(more))
            .collect()
    });
    let columns = Columns::new(schedule.first_beat, lanes);
    let width = (columns.end() + MARGIN).max(LEAST_WIDTH);
    let mut svg = Svg::default();
    let mut y = draw_title(&mut svg, schedule, width);
    for panel in &panels {
        y = panel.draw(&mut svg, &columns, width, y + 10) + 14;
    }
    let signs: BTreeSet<_> = panels.iter().flat_map(Panel::signs).collect();
    svg.line((MARGIN, y), (width - MARGIN, y), pen(BLACK, 1));
    y = legend::draw(&mut svg, &signs, width, y + 8);
    svg.page(width, y + MARGIN, &schedule.title)
}

/// The title, and who takes part; says where it ends.
fn draw_title(svg: &mut Svg, schedule: &Schedule, width: i32) -> i32 {
    let y = paragraph(svg, &schedule.title, bold(17, BLACK), width, MARGIN);
    let do_so = |benches: &[u8], one: &str, several: &str| match benches.len() {
        0 => format!("nobody {one}"),
        1 => format!("{} {one}", set(benches)),
        _ => format!("{} {several}", set(benches)),
    };
    let who = format!(
        "{}: {} the rules, {} them. Beats {} to {}.",
        counted(schedule.n.into(), "bench", "benches"),
        do_so(&schedule.keepers, "keeps", "keep"),
        do_so(&breakers(schedule), "breaks", "break"),
        schedule.first_beat,
        schedule.last_beat
    );
    paragraph(svg, &who, regular(12, BLACK), width, y + 6)
}

/// Whoever does not keep the rules.
fn breakers(schedule: &Schedule) -> Vec<u8> {
    (0..schedule.n).filter(|own| !schedule.keepers.contains(own)).collect()
}
