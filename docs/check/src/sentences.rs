//! The sections of READING.md that state rules: each of their sentences names a definition.
use crate::definitions::part;
use crate::finding::Finding;
use crate::markdown::{blocks, Block, Kind};
use crate::spans::spans;
use std::ops::Range;

/// What marks a section, right below its heading.
const MARK: &str = "<!-- rules -->";

/// The sentences of marked sections that have no reference. Wrong too is a document with no sentence to judge, and a mark that
/// stands where it marks nothing.
pub fn check(document: &str, text: &str) -> Vec<Finding> {
    let blocks = blocks(&part(text).body);
    let marked = marked(&blocks);
    let mut wrong = stray(document, &blocks);
    if marked.iter().all(|block| sentences(block).is_empty()) {
        wrong.push(Finding::new(document, 1, format!("no section is marked by {MARK}")));
    }
    wrong.extend(marked.into_iter().flat_map(|block| unnamed(document, block)));
    wrong
}

/// The marks that no heading stands right above.
fn stray(document: &str, blocks: &[Block]) -> Vec<Finding> {
    let marks = (0..blocks.len()).filter(|&index| blocks[index].text == MARK && blocks[index].kind == Kind::Comment);
    let is_stray = |&index: &usize| index == 0 || !is_marked(&blocks[index - 1], blocks.get(index));
    let told = marks.filter(is_stray).map(|index| {
        let what = format!("{MARK} stands below no heading");
        Finding::new(document, blocks[index].line, what)
    });
    told.collect()
}

/// The blocks of the marked sections.
fn marked(blocks: &[Block]) -> Vec<&Block> {
    let mut found = vec![];
    let mut within: Option<usize> = None;
    for (index, block) in blocks.iter().enumerate() {
        if let Kind::Heading(level) = block.kind {
            within = within.filter(|&top| level > top);
            if within.is_none() && is_marked(block, blocks.get(index + 1)) {
                within = Some(level);
            }
        } else if within.is_some() {
            found.push(block);
        }
    }
    found
}

fn is_marked(above: &Block, next: Option<&Block>) -> bool {
    let is_mark = |next: &Block| next.kind == Kind::Comment && next.text == MARK && next.line == above.line + 1;
    matches!(above.kind, Kind::Heading(_)) && next.is_some_and(is_mark)
}

fn unnamed(document: &str, block: &Block) -> Vec<Finding> {
    let names = spans(block).into_iter().filter(|span| span.is_reference);
    let names: Vec<Range<usize>> = names.map(|span| span.place).collect();
    let is_unnamed = |place: &Range<usize>| !names.iter().any(|name| place.contains(&name.start));
    let told = sentences(block).into_iter().filter(is_unnamed).map(|place| {
        let sentence = block.text[place.clone()].replace('\n', " ");
        let what = format!("this sentence names no definition: {sentence}");
        Finding::new(document, block.line_at(place.start), what)
    });
    told.collect()
}

/// Where the sentences of a block stand; a row of a table is one.
pub fn sentences(block: &Block) -> Vec<Range<usize>> {
    match block.kind {
        Kind::Paragraph if is_picture(&block.text) => vec![],
        Kind::Paragraph | Kind::Item => split(block),
        Kind::Row => std::iter::once(0..block.text.len()).collect(),
        _ => vec![],
    }
}

/// A picture alone, `![words](file)`: its words are for who cannot see it, and the sentence before it states the rule.
fn is_picture(text: &str) -> bool {
    let parts = text.strip_prefix("![").and_then(|rest| rest.split_once("]("));
    parts.is_some_and(|(_, file)| file.strip_suffix(')').is_some_and(|file| !file.contains([')', ' ', '\n'])))
}

fn split(block: &Block) -> Vec<Range<usize>> {
    let text = &block.text;
    let mut found = vec![];
    let mut from = 0;
    for end in ends(block) {
        found.push(from..end);
        from = end + text[end..].len() - text[end..].trim_start().len();
    }
    if !text[from..].trim().is_empty() {
        found.push(from..text.len());
    }
    found
}

/// The places past the marks that end a sentence within a text: none in brackets or in code.
fn ends(block: &Block) -> Vec<usize> {
    let text = &block.text;
    let code = spans(block);
    let mut depth = 0_usize;
    let mut ends = vec![];
    for (place, c) in text.char_indices() {
        if code.iter().any(|span| span.place.contains(&place)) {
            continue;
        }
        match c {
            '(' | '[' | '{' => depth += 1,
            ')' | ']' | '}' => depth = depth.saturating_sub(1),
            '.' | '?' | '!' | ':' if depth == 0 && is_end(text, place + 1) => ends.push(place + 1),
            _ => {}
        }
    }
    ends
}

/// Whether a sentence can end here: white space follows, and then what a sentence starts with.
fn is_end(text: &str, place: usize) -> bool {
    let is_short = text[..place].ends_with("e.g.") || text[..place].ends_with("i.e.");
    let rest = &text[place..];
    let starts = |c: char| c.is_uppercase() || c.is_ascii_digit() || "`[*".contains(c);
    !is_short && rest.starts_with(char::is_whitespace) && rest.trim_start().starts_with(starts)
}
