//! The code spans of a block, and which of them are reference links.
use crate::markdown::{blocks, Block, Kind};
use std::ops::Range;

/// A code span: the line it starts at, where it stands in its block's text (backticks included), and what is in it.
#[derive(Debug, Clone, PartialEq, Eq)]
pub struct Span {
    pub line: usize,
    pub place: Range<usize>,
    pub code: String,
    /// it stands as [`code`], and no address of its own follows
    pub is_reference: bool,
}

/// The code spans of a document, those of fences and comments aside.
pub fn spans_of(text: &str) -> Vec<Span> {
    let blocks = blocks(text);
    let shown = blocks
        .iter()
        .filter(|block| !matches!(block.kind, Kind::Fence | Kind::Comment));
    shown.flat_map(spans).collect()
}

/// The code spans of a block. A run of backticks that no equal run follows is plain text.
pub fn spans(block: &Block) -> Vec<Span> {
    let text = &block.text;
    let runs = runs(text);
    let mut found = vec![];
    let mut next = 0;
    while next < runs.len() {
        let open = &runs[next];
        let close = (next + 1..runs.len()).find(|&other| runs[other].len() == open.len());
        if let Some(close) = close {
            let place = open.start..runs[close].end;
            found.push(Span {
                line: block.line_at(place.start),
                code: unpadded(&text[open.end..runs[close].start].replace('\n', " ")),
                is_reference: is_reference(text, &place),
                place,
            });
            next = close;
        }
        next += 1;
    }
    found
}

/// The runs of backticks in a text.
fn runs(text: &str) -> Vec<Range<usize>> {
    let mut runs: Vec<Range<usize>> = vec![];
    for (place, _) in text.match_indices('`') {
        match runs.last_mut() {
            Some(run) if run.end == place => run.end += 1,
            _ => runs.push(place..place + 1),
        }
    }
    runs
}

/// A blank on both sides only keeps backticks apart.
fn unpadded(code: &str) -> String {
    let inner = code.strip_prefix(' ').and_then(|code| code.strip_suffix(' '));
    inner.filter(|inner| !inner.trim().is_empty()).unwrap_or(code).to_string()
}

fn is_reference(text: &str, place: &Range<usize>) -> bool {
    let after = text[place.end..].strip_prefix(']');
    text[..place.start].ends_with('[') && after.is_some_and(|after| !after.starts_with(['(', '[']))
}

/// The text of a block with its code spans blanked out: what is left stands where it stood.
pub fn without_code(block: &Block) -> String {
    let mut text = block.text.clone();
    for span in spans(block) {
        let length = span.place.len();
        text.replace_range(span.place, &" ".repeat(length));
    }
    text
}
