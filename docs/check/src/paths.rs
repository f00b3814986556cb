//! The links and the paths in a document lead somewhere.
use crate::finding::Finding;
use crate::markdown::{blocks, Block, Kind};
use crate::spans::without_code;
use crate::tree::{folder_of, resolved, Tree};

/// How a path begins that is meant from the root.
const ROOTS: [&str; 3] = ["crates/", "docs/", "model/"];

pub fn check(document: &str, text: &str, tree: &Tree) -> Vec<Finding> {
    let mut wrong = vec![];
    let blocks = blocks(text);
    let anchors: Vec<String> = blocks.iter().filter_map(anchor).collect();
    for block in &blocks {
        let links = if block.kind == Kind::Fence { vec![] } else { links(block) };
        let leads = |target: &str| match target.strip_prefix('#') {
            Some(anchor) => anchors.iter().any(|heading| heading == anchor),
            None => resolved(folder_of(document), target).is_some_and(|path| tree.exists(&path)),
        };
        let broken = links.into_iter().filter(|(_, target)| !leads(target));
        wrong.extend(broken.map(|(line, target)| Finding::new(document, line, format!("the link to {target} leads nowhere"))));
        let paths = ROOTS.iter().flat_map(|root| path_at(&block.text, root));
        let missing = paths.filter(|(_, path)| !tree.exists(path));
        wrong.extend(missing.map(|(place, path)| Finding::new(document, block.line_at(place), format!("there is no {path}"))));
    }
    wrong.sort_by_key(|finding| finding.line);
    wrong
}

/// The targets of the links within the repository, each with its line: a file, or `#` and a heading of the same document.
pub fn links(block: &Block) -> Vec<(usize, String)> {
    let plain = without_code(block);
    let targets = plain.match_indices("](").filter_map(|(place, mark)| {
        let (target, _) = plain[place + mark.len()..].split_once(')')?;
        let target = target.split(' ').next()?;
        let file = target.split('#').next().filter(|file| !file.is_empty()).unwrap_or(target);
        let is_outside = file.contains("://") || file.starts_with("mailto:");
        (!file.is_empty() && !is_outside).then(|| (block.line_at(place), file.to_string()))
    });
    targets.collect()
}

/// How a link names a heading of its own document: small letters, digits and hyphens, a hyphen for each blank.
fn anchor(block: &Block) -> Option<String> {
    let Kind::Heading(_) = block.kind else { return None };
    let kept = block.text.chars().filter(|c| c.is_alphanumeric() || " -".contains(*c));
    Some(kept.collect::<String>().to_lowercase().replace(' ', "-"))
}

/// The paths in a text that begin so, each with its place. What ends a sentence is no part of one.
pub fn path_at<'a>(text: &'a str, root: &str) -> Vec<(usize, &'a str)> {
    let is_part = |c: char| c.is_alphanumeric() || "/._-".contains(c);
    let starts = text.match_indices(root).map(|(place, _)| place);
    let starts = starts.filter(|&place| !text[..place].ends_with(is_part));
    let paths = starts.map(|place| {
        let rest = &text[place..];
        let length = rest.find(|c| !is_part(c)).unwrap_or(rest.len());
        (place, rest[..length].trim_end_matches('.'))
    });
    paths.collect()
}
