//! The chart: the documents show what the program writes.
use crate::finding::Finding;
use crate::markdown::{blocks, Block, Kind};
use crate::tree::Tree;

/// What the program writes.
pub const CHART: &str = "crates/chart/stdout";
/// How much of it the shorter showing has at least.
const LEAST_LINES: usize = 12;

/// One fence is the whole of it.
pub fn check_whole(document: &str, text: &str, tree: &Tree) -> Vec<Finding> {
    judge(document, text, tree, "no fence is the text of", |shown, chart| shown == chart)
}

/// One fence is its first lines.
pub fn check_start(document: &str, text: &str, tree: &Tree) -> Vec<Finding> {
    let told = format!("no fence has {LEAST_LINES} lines or more that are the first of");
    judge(document, text, tree, &told, |shown, chart| {
        shown.len() >= LEAST_LINES && chart.starts_with(shown)
    })
}

fn judge(document: &str, text: &str, tree: &Tree, told: &str, is_right: impl Fn(&[&str], &[&str]) -> bool) -> Vec<Finding> {
    let chart: Vec<&str> = tree.text(CHART).unwrap_or("").lines().collect();
    if chart.is_empty() {
        return vec![Finding::new(document, 1, format!("there is no {CHART}, or nothing in it"))];
    }
    let blocks = blocks(text);
    let fences: Vec<&Block> = blocks.iter().filter(|block| block.kind == Kind::Fence).collect();
    if fences.iter().any(|fence| is_right(&lines(fence), &chart)) {
        return vec![];
    }
    vec![nearest(document, &fences, &chart, told)]
}

fn lines(fence: &Block) -> Vec<&str> {
    fence.text.lines().collect()
}

/// The finding at the line where the fence that goes along furthest parts from the chart.
fn nearest(document: &str, fences: &[&Block], chart: &[&str], told: &str) -> Finding {
    let along = |fence: &&&Block| {
        lines(fence)
            .iter()
            .zip(chart)
            .take_while(|(shown, line)| shown == line)
            .count()
    };
    let best = fences.iter().max_by_key(along).filter(|fence| along(fence) > 0);
    let line = best.map_or(1, |fence| fence.line + 1 + along(&fence));
    Finding::new(document, line, format!("{told} {CHART}"))
}
