//! Below the rows of a run: where the premises fail, what of the promise is broken, the verdict, and what demand 3 says of it.
use super::conflict::first;
use super::layout::MARGIN;
use super::premises::Note;
use super::prose::{paragraph, room, write};
use super::svg::{bold, pen, regular, Svg, BLACK, RED, WHITE};
use super::words::{log, set, wrap};
use crate::history::message::Log;
use crate::sketch::lines::on_demand_three;
use crate::sketch::story::Run;
use crate::volume::promise::{Broken, Decision};
use std::collections::BTreeSet;

/// Draws all that from `top` down, and says where it ends.
pub fn draw(svg: &mut Svg, run: &Run, notes: &[Note], width: i32, top: i32) -> i32 {
    let mut y = top;
    for note in notes {
        y = paragraph(svg, &note.words(), regular(12, RED), width, y);
    }
    if run.breaches.is_empty() {
        y = paragraph(svg, "All three premises hold.", regular(12, BLACK), width, y);
    }
    for words in besides(run) {
        y = paragraph(svg, &words, regular(12, BLACK), width, y);
    }
    y = draw_verdict(svg, run, width, y + 4);
    for words in on_demand_three(run) {
        y = paragraph(svg, &words, regular(12, BLACK), width, y);
    }
    y
}

/// What is broken besides a conflict.
fn besides(run: &Run) -> Vec<String> {
    let (mut parted, mut short) = (BTreeSet::new(), BTreeSet::new());
    for broken in &run.broken {
        match broken {
            Broken::Conflict { .. } => false,
            Broken::Parted { bench, .. } => parted.insert(*bench),
            Broken::Standing { bench, .. } => short.insert(*bench),
        };
    }
    let parted = (!parted.is_empty()).then(|| format!("Marked as parted: {}.", set(&parted)));
    let short = (!short.is_empty()).then(|| format!("Where not the longest decided log stands: {}.", set(&short)));
    parted.into_iter().chain(short).collect()
}

/// In a frame where it is a conflict.
fn draw_verdict(svg: &mut Svg, run: &Run, width: i32, top: i32) -> i32 {
    let verdict = verdict(run);
    if first(run).is_none() {
        return paragraph(svg, &verdict, bold(13, BLACK), width, top);
    }
    let (x, inside) = (MARGIN + 12, width - 2 * MARGIN - 24);
    let height = 14 + 17 * wrap(&verdict, room(13, inside)).len() as i32;
    svg.rect((MARGIN + 2, top), (width - 2 * MARGIN - 4, height), WHITE, Some(pen(RED, 3)));
    write(svg, &verdict, bold(13, RED), (x, top + 5), inside);
    top + height + 4
}

fn verdict(run: &Run) -> String {
    let Some(([one, other], [first, second])) = first(run) else {
        return "No two decided logs conflict.".to_string();
    };
    let decides = |decision: Decision, decided: &Log| {
        format!("bench {} decides {} at beat {}", decision.bench, log(decided), decision.beat)
    };
    format!(
        "CONFLICT, two histories: {}, and {}; neither log starts with the other.",
        decides(one, first),
        decides(other, second)
    )
}
