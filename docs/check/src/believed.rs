//! How much a reader must believe: which files of definitions there are, and how many lines, as READING.md says.
use crate::definitions::part;
use crate::finding::Finding;
use crate::markdown::{blocks, Block, Kind};
use crate::paths::links;
use crate::public::{lines_said, public_lines};
use crate::tree::{folder_of, resolved, Tree};
use std::collections::BTreeSet;

/// The section that has the list and the numbers.
const SECTION: &str = "What a reader must believe";
/// A paragraph with these words has the files of specs/ that are not to be read.
const UNNEEDED: &str = "no reader needs";
/// What a number of lines counts, by the words behind it: else the files that its paragraph links to.
const IN_ALL: &str = "in all";
const PROMISES: &str = "of promises and types";
/// The paragraph that has the files of demand 3 is known by this.
const DEMAND: &str = "demand 3";

/// The section as far as it is checked.
struct Section<'a> {
    line: usize,
    parts: Vec<Part<'a>>,
}

struct Part<'a> {
    block: &'a Block,
    /// the files of definitions that it links to
    files: BTreeSet<String>,
}

pub fn check(document: &str, text: &str, tree: &Tree) -> Vec<Finding> {
    let body = part(text).body;
    let blocks = blocks(&body);
    let Some(section) = Section::of(document, &blocks, tree) else {
        return vec![Finding::new(document, 1, format!("there is no section {SECTION:?}"))];
    };
    let mut wrong: Vec<(usize, String)> = section
        .parts
        .iter()
        .flat_map(|part| miscounted(part, &section, tree))
        .collect();
    wrong.extend(section.unlisted(tree));
    wrong.extend(section.unsaid(tree));
    wrong.sort();
    wrong
        .into_iter()
        .map(|(line, what)| Finding::new(document, line, what))
        .collect()
}

impl<'a> Section<'a> {
    fn of(document: &str, blocks: &'a [Block], tree: &Tree) -> Option<Section<'a>> {
        let is_start = |block: &Block| matches!(block.kind, Kind::Heading(_)) && block.text == SECTION;
        let start = blocks.iter().position(is_start)?;
        let within = blocks[start + 1..]
            .iter()
            .take_while(|block| !matches!(block.kind, Kind::Heading(level) if level <= 2));
        let part = |block: &'a Block| {
            let targets = links(block).into_iter();
            let files = targets.filter_map(|(_, target)| resolved(folder_of(document), &target));
            let files = files.filter(|file| is_definitions(file, tree)).collect();
            Part { block, files }
        };
        Some(Section {
            line: blocks[start].line,
            parts: within.map(part).collect(),
        })
    }

    fn files(&self, is_needed: bool) -> BTreeSet<&str> {
        let parts = self.parts.iter().filter(|part| part.is_needed() == is_needed);
        parts.flat_map(|part| part.files.iter().map(String::as_str)).collect()
    }

    /// Every file of definitions is either to be read or said not to be.
    fn unlisted(&self, tree: &Tree) -> Vec<(usize, String)> {
        let (needed, unneeded) = (self.files(true), self.files(false));
        let wrong =
            definitions(tree)
                .into_iter()
                .filter_map(|(file, _)| match (needed.contains(file), unneeded.contains(file)) {
                    (false, false) => Some(format!("{file} is not on the list, nor among those that {UNNEEDED}")),
                    (true, true) => Some(format!("{file} is on the list, and among those that {UNNEEDED}")),
                    _ => None,
                });
        wrong.map(|what| (self.line, what)).collect()
    }

    /// The numbers that must be there.
    fn unsaid(&self, tree: &Tree) -> Vec<(usize, String)> {
        let of_all = |part: &Part| numbers(part.block).iter().any(|number| number.counts == Counts::All);
        let of_demand = |part: &Part| {
            let said = numbers(part.block).iter().any(|number| number.counts == Counts::Linked);
            said && part.block.text.contains(DEMAND) && !part.files.is_empty()
        };
        let mut wrong = vec![];
        if !self.parts.iter().any(of_all) {
            wrong.push(format!("nothing says how many lines {IN_ALL}: {}", self.in_all(tree)));
        }
        if !self.parts.iter().any(of_demand) {
            wrong.push(format!(
                "no paragraph on {DEMAND} links to its files and says how many lines they have"
            ));
        }
        wrong.into_iter().map(|what| (self.line, what)).collect()
    }

    fn in_all(&self, tree: &Tree) -> usize {
        let unneeded = self.files(false);
        let files = definitions(tree).into_iter().filter(|(file, _)| !unneeded.contains(file));
        files.map(|(_, text)| lines_said(text)).sum::<usize>() + promises(tree)
    }
}

impl Part<'_> {
    fn is_needed(&self) -> bool {
        !self.block.text.replace('\n', " ").contains(UNNEEDED)
    }
}

/// The numbers of a part that are not the right ones.
fn miscounted(part: &Part, section: &Section, tree: &Tree) -> Vec<(usize, String)> {
    let told = numbers(part.block).into_iter().filter_map(|number| {
        let (right, of) = match number.counts {
            Counts::All => (section.in_all(tree), format!("lines {IN_ALL}")),
            Counts::Promises => (promises(tree), format!("lines {PROMISES}")),
            Counts::Linked => {
                let texts = part.files.iter().filter_map(|file| tree.text(file));
                (texts.map(lines_said).sum(), "lines in the files linked here".to_string())
            }
        };
        let line = part.block.line_at(number.place);
        (number.said != right).then(|| (line, format!("{} is said, and there are {right} {of}", number.said)))
    });
    told.collect()
}

#[derive(PartialEq, Eq)]
enum Counts {
    Linked,
    Promises,
    All,
}

/// A number of lines in a text, and where it stands.
struct Number {
    place: usize,
    said: usize,
    counts: Counts,
}

/// The numbers before the word "lines"; thousands may be set off by commas.
fn numbers(block: &Block) -> Vec<Number> {
    let text = block.text.replace('\n', " ");
    let found = text.match_indices(" lines").filter_map(|(end, word)| {
        let before = &text[..end];
        let digits = before.trim_end_matches(|c: char| c.is_ascii_digit() || c == ',');
        let said = before[digits.len()..].replace(',', "").parse().ok()?;
        let after = text[end + word.len()..].trim_start();
        let counts = match after {
            _ if after.starts_with(IN_ALL) => Counts::All,
            _ if after.starts_with(PROMISES) => Counts::Promises,
            _ => Counts::Linked,
        };
        let place = digits.len();
        Some(Number { place, said, counts })
    });
    found.collect()
}

/// The files of definitions. One that only lists modules says nothing.
fn definitions(tree: &Tree) -> Vec<(&str, &str)> {
    tree.files().filter(|(path, _)| is_definitions(path, tree)).collect()
}

fn is_definitions(path: &str, tree: &Tree) -> bool {
    let is_there = path.starts_with("crates/") && path.contains("/specs/") && path.ends_with(".antt");
    let says = |line: &str| !line.trim().is_empty() && !line.starts_with("--") && !line.starts_with("pub mod ");
    is_there && tree.text(path).is_some_and(|text| text.lines().any(says))
}

/// The lines of public types, and of what public functions promise.
fn promises(tree: &Tree) -> usize {
    sources(tree).iter().map(|(_, text)| public_lines(text)).sum()
}

/// The library of the programs says nothing of the engine.
const OF_TESTS: &str = "crates/script/";

fn sources(tree: &Tree) -> Vec<(&str, &str)> {
    let is_source = |path: &str| path.starts_with("crates/") && path.contains("/src/") && path.ends_with(".rt");
    let files = tree.files().filter(|(path, _)| is_source(path));
    files.filter(|(path, _)| !path.starts_with(OF_TESTS)).collect()
}

/// A line for each file: what it is counted as.
pub fn table(tree: &Tree) -> String {
    let specs = definitions(tree).into_iter().map(|(file, text)| (file, lines_said(text)));
    let sources = sources(tree).into_iter().map(|(file, text)| (file, public_lines(text)));
    let rows = specs.chain(sources.filter(|(_, lines)| *lines > 0));
    let rows = rows.map(|(file, lines)| format!("{lines:5} {file}\n")).collect::<String>();
    format!("{rows}{:5} of promises and types\n", promises(tree))
}
