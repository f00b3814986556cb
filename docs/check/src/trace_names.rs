//! The names and the paths in TRACE.md.
use crate::declared::Declared;
use crate::finding::Finding;
use crate::layers::{crates_of, unknown_layer};
use crate::markdown::{blocks, Block, Kind};
use crate::paths::path_at;
use crate::spans::{spans, Span};
use crate::tree::Tree;

/// Words of Rattle that the document speaks of: they look like names and are none.
const KEYWORDS: [&str; 2] = ["requires", "ensures"];
/// How a path begins that is below a crate which the row speaks of.
const IN_CRATE: [&str; 5] = ["specs/", "proofs/", "src/", "must-fail/", "more-edits/"];
/// How a path begins that is below the root.
const IN_ROOT: [&str; 5] = ["crates/", "model/", "docs/", ".ci/", "./"];

pub fn check(document: &str, text: &str, tree: &Tree) -> Vec<Finding> {
    let declared = Declared::of(tree);
    let mut wrong = vec![];
    for block in blocks(text).iter().filter(|block| block.kind != Kind::Fence) {
        let crates = crates_of(block, tree);
        let unknown = unknown_layer(block).map(|said| format!("there is no layer called {said}"));
        wrong.extend(unknown.map(|what| Finding::new(document, block.line, what)));
        wrong.extend(undeclared(document, block, tree, &declared));
        wrong.extend(misplaced(document, block, (tree, &crates), &declared));
    }
    wrong.sort_by_key(|finding| finding.line);
    wrong
}

/// Names that no source declares.
fn undeclared(document: &str, block: &Block, tree: &Tree, declared: &Declared) -> Vec<Finding> {
    let crates = tree.crates();
    let is_known = |name: &str| crates.contains(name) || declared.anywhere(name);
    let spans = spans(block);
    let named = spans.iter().filter_map(|span| Some((span.line, name_in(span)?)));
    let unknown = named.filter(|(_, name)| !is_known(name));
    let told = unknown.map(|(line, name)| Finding::new(document, line, format!("`{name}` is declared nowhere")));
    told.collect()
}

/// The name that a code span is, if it looks like one.
fn name_in(span: &Span) -> Option<&str> {
    let code = &span.code;
    let name = ["struct ", "enum "]
        .iter()
        .find_map(|word| code.strip_prefix(word))
        .unwrap_or(code);
    let is_plain = |part: &str| part.chars().all(|c| c.is_alphanumeric() || "_-'◌".contains(c)) && !part.is_empty();
    (name.split("::").all(is_plain) && !KEYWORDS.contains(&name)).then_some(name)
}

/// The paths in a text, with where they start.
fn paths(text: &str) -> Vec<(usize, &str)> {
    let roots = IN_CRATE.iter().chain(&IN_ROOT);
    let mut paths: Vec<(usize, &str)> = roots.flat_map(|root| path_at(text, root)).collect();
    paths.sort();
    paths
}

/// What a path may mean: below the root, or below any of these crates.
fn places(path: &str, (tree, crates): (&Tree, &[&str])) -> Vec<String> {
    let bare = path.trim_end_matches('/');
    let mut places = vec![bare.to_string()];
    if is_in_crate(path) {
        places = crates.iter().map(|name| format!("crates/{name}/{bare}")).collect();
    }
    places.retain(|place| tree.exists(place));
    places
}

fn is_in_crate(path: &str) -> bool {
    IN_CRATE.iter().any(|root| path.starts_with(root))
}

/// Paths that lead nowhere, names said to be in a file that does not declare them, and paths that may mean the files of two crates.
fn misplaced(document: &str, block: &Block, source: (&Tree, &[&str]), declared: &Declared) -> Vec<Finding> {
    let spans = spans(block);
    let mut wrong = vec![];
    for (place, path) in paths(&block.text) {
        let named = said_in(&block.text[..place], &spans);
        let names: Vec<&str> = named.iter().rev().filter_map(|span| name_in(span)).collect();
        let what = judged(path, &names, source, declared);
        wrong.extend(what.map(|what| Finding::new(document, block.line_at(place), what)));
    }
    wrong
}

/// What is wrong with a path in which these names are said to be: one file, or one folder, declares them all. Where no name is
/// given a file must be the only one of its path, while a folder may be that of any crate.
fn judged(path: &str, names: &[&str], source: (&Tree, &[&str]), declared: &Declared) -> Option<String> {
    let places = places(path, source);
    if places.is_empty() {
        let among = if is_in_crate(path) { source.1 } else { &[] };
        return Some(format!("there is no {path}{}", in_crates(among)));
    }
    let missing = |place: &String| declared.missing_below(place, names);
    let least = places.iter().map(missing).min_by_key(Vec::len).unwrap_or_default();
    if !least.is_empty() {
        return Some(format!("{path} does not declare {}", least.join(", ")));
    }
    let meant: Vec<&String> = places.iter().filter(|place| missing(place).is_empty()).collect();
    let is_file = path.rsplit('/').next().is_some_and(|last| last.contains('.'));
    let is_open = names.is_empty() && !is_file;
    let all: Vec<&str> = meant.iter().map(|place| place.as_str()).collect();
    (meant.len() > 1 && !is_open).then(|| format!("{path} may be {}: say which", all.join(" or ")))
}

/// The crates that a path was looked for in, where they are few.
fn in_crates(crates: &[&str]) -> String {
    match crates {
        [_, _, _, _, ..] | [] => String::new(),
        _ => format!(" in {}", crates.join(", ")),
    }
}

/// The names before a path, where the text has the form `name`, `other` in PATH; each may have a gloss in round brackets.
fn said_in<'a>(before: &str, spans: &'a [Span]) -> Vec<&'a Span> {
    let mut named = vec![];
    let Some(mut rest) = before
        .trim_end()
        .strip_suffix(" in")
        .or(before.trim_end().strip_suffix("\nin"))
    else {
        return named;
    };
    rest = rest.trim_end().trim_end_matches(',');
    while let Some(span) = spans.iter().find(|span| span.place.end == without_gloss(rest).len()) {
        named.push(span);
        let start = before[..span.place.start].trim_end();
        let next = start.strip_suffix("and").map(str::trim_end).or(start.strip_suffix(','));
        let Some(next) = next else { break };
        rest = next.trim_end_matches(',');
    }
    named
}

/// The text without the round brackets that it ends with.
fn without_gloss(text: &str) -> &str {
    let text = text.trim_end();
    if !text.ends_with(')') {
        return text;
    }
    let mut depth = 0;
    for (place, c) in text.char_indices().rev() {
        match c {
            ')' => depth += 1,
            '(' => depth -= 1,
            _ => {}
        }
        if depth == 0 {
            return text[..place].trim_end();
        }
    }
    text
}
