//! The names in READING.md: each is a link to the file that declares it.
use crate::declared::Declared;
use crate::definitions::{part, Definition, Parted};
use crate::finding::Finding;
use crate::spans::{spans_of, Span};
use crate::tree::{folder_of, resolved, Tree};
use std::collections::BTreeSet;

/// What is wrong with the code spans and the definitions of a document.
pub fn check(document: &str, text: &str, tree: &Tree) -> Vec<Finding> {
    let parted = part(text);
    let spans = spans_of(&parted.body);
    let (references, others): (Vec<Span>, Vec<Span>) = spans.into_iter().partition(|span| span.is_reference);
    let mut wrong = plain(document, &others, tree);
    wrong.extend(undefined(document, &references, &parted.definitions));
    wrong.extend(unused(document, &references, &parted.definitions));
    wrong.extend(twice(document, &parted.definitions));
    wrong.extend(undeclared(document, &parted.definitions, tree));
    wrong.extend(joined(document, &parted));
    wrong.sort_by_key(|finding| finding.line);
    wrong
}

/// Code spans that are neither a name with its link, nor a path, nor a command.
fn plain(document: &str, spans: &[Span], tree: &Tree) -> Vec<Finding> {
    let bare = spans
        .iter()
        .filter(|span| !is_command(&span.code) && !is_path(&span.code, tree));
    let told = bare.map(|span| {
        let code = &span.code;
        Finding::new(document, span.line, format!("`{code}` is no link, no path and no command"))
    });
    told.collect()
}

fn is_command(code: &str) -> bool {
    code.starts_with("rt ") || code.starts_with("cargo ")
}

fn is_path(code: &str, tree: &Tree) -> bool {
    let is_meant = code.contains('/') || [".md", ".antt", ".rt", ".txt"].iter().any(|end| code.ends_with(end));
    let first = code.split_whitespace().next().unwrap_or("");
    is_meant && !first.starts_with('/') && tree.exists(first)
}

fn undefined(document: &str, references: &[Span], definitions: &[Definition]) -> Vec<Finding> {
    let defined: BTreeSet<&String> = definitions.iter().map(|definition| &definition.name).collect();
    let missing = references.iter().filter(|span| !defined.contains(&span.code));
    let told = missing.map(|span| {
        let what = format!("[`{}`] has no definition at the end of the document", span.code);
        Finding::new(document, span.line, what)
    });
    told.collect()
}

fn unused(document: &str, references: &[Span], definitions: &[Definition]) -> Vec<Finding> {
    let used: BTreeSet<&String> = references.iter().map(|span| &span.code).collect();
    let idle = definitions.iter().filter(|definition| !used.contains(&definition.name));
    let told = idle.map(|definition| {
        let what = format!("[`{}`] is defined and nowhere used", definition.name);
        Finding::new(document, definition.line, what)
    });
    told.collect()
}

/// Markdown does not tell capitals from small letters in a label, and the first definition wins.
fn twice(document: &str, definitions: &[Definition]) -> Vec<Finding> {
    let mut wrong = vec![];
    for (index, second) in definitions.iter().enumerate() {
        let is_alike = |first: &&Definition| first.name.to_lowercase() == second.name.to_lowercase();
        let first = definitions[..index].iter().find(is_alike);
        if let Some(first) = first.filter(|first| first.name == second.name || first.target != second.target) {
            let (name, line) = (&second.name, first.line);
            let what = format!(
                "[`{name}`] is defined again; markdown takes [`{}`] of line {line}",
                first.name
            );
            wrong.push(Finding::new(document, second.line, what));
        }
    }
    wrong
}

fn undeclared(document: &str, definitions: &[Definition], tree: &Tree) -> Vec<Finding> {
    let declared = Declared::of(tree);
    let told = definitions.iter().filter_map(|definition| {
        let (name, target) = (&definition.name, &definition.target);
        let path = resolved(folder_of(document), target).filter(|path| tree.text(path).is_some());
        let what = match path {
            None => format!("[`{name}`]: there is no file {target}"),
            Some(path) if !declared.in_file(&path, name) => format!("[`{name}`]: {path} does not declare it"),
            Some(_) => return None,
        };
        Some(Finding::new(document, definition.line, what))
    });
    told.collect()
}

fn joined(document: &str, parted: &Parted) -> Option<Finding> {
    let line = parted.joined?;
    Some(Finding::new(
        document,
        line,
        "no blank line parts the definitions from the text",
    ))
}
