//! The edits in TRACE.md: each named one exists, and each that exists is named.
use crate::finding::Finding;
use crate::layers::crates_of;
use crate::markdown::{blocks, cells, Block, Kind};
use crate::spans::without_code;
use crate::tree::{crate_of, Tree};

/// The folders of edits: must-fail, and the one whose edits are named with a + behind.
const FOLDERS: [&str; 2] = ["must-fail", "more-edits"];

/// An edit as it stands in a crate.
#[derive(Debug, PartialEq, Eq)]
struct Edit<'a> {
    name: &'a str,
    folder: &'static str,
    of_crate: &'a str,
}

/// An edit as the document names it, and the crates that it may be of: the one in round brackets behind it; else those that the
/// row speaks of, and those in brackets behind other edits of the row.
#[derive(Debug)]
struct Named {
    line: usize,
    name: String,
    folder: &'static str,
    crates: Vec<String>,
}

impl Named {
    fn is(&self, edit: &Edit) -> bool {
        let is_crate = self.crates.iter().any(|name| name == edit.of_crate);
        self.name == edit.name && self.folder == edit.folder && is_crate
    }

    /// What is wrong, unless it is one edit.
    fn judged(&self, kept: &[Edit]) -> Option<String> {
        let (name, folder) = (&self.name, self.folder);
        let meant: Vec<&str> = kept.iter().filter(|edit| self.is(edit)).map(|edit| edit.of_crate).collect();
        match meant[..] {
            [_] => None,
            [] => {
                let of_crate = match &self.crates[..] {
                    [only] => only.clone(),
                    [_, _, _, _, ..] | [] => "*".to_string(),
                    few => format!("{{{}}}", few.join(",")),
                };
                Some(format!("there is no crates/{of_crate}/{folder}/{name}.edit"))
            }
            _ => Some(format!("{name} stands in {folder} of {}: say which", meant.join(" and "))),
        }
    }
}

pub fn check(document: &str, text: &str, tree: &Tree) -> Vec<Finding> {
    let named = named(text, tree);
    let kept = kept(tree);
    let told = named.iter().filter_map(|edit| Some((edit.line, edit.judged(&kept)?)));
    let mut wrong: Vec<Finding> = told.map(|(line, what)| Finding::new(document, line, what)).collect();
    let last = text.lines().count();
    let unnamed = kept.iter().filter(|edit| !named.iter().any(|named| named.is(edit)));
    wrong.extend(unnamed.map(|edit| {
        let what = format!("crates/{}/{}/{}.edit is named nowhere", edit.of_crate, edit.folder, edit.name);
        Finding::new(document, last, what)
    }));
    wrong
}

/// The edits there are.
fn kept(tree: &Tree) -> Vec<Edit<'_>> {
    let edits = tree.files().filter_map(|(path, _)| {
        let of_crate = crate_of(path)?;
        let (folder, file) = path.strip_prefix("crates/")?.strip_prefix(of_crate)?[1..].split_once('/')?;
        Some(Edit {
            name: file.strip_suffix(".edit")?,
            folder: FOLDERS.iter().find(|known| **known == folder)?,
            of_crate,
        })
    });
    edits.collect()
}

/// The edits that are named in the column of guards and in plain text.
fn named(text: &str, tree: &Tree) -> Vec<Named> {
    let mut found = vec![];
    let mut guard = 0;
    for block in &blocks(text) {
        let plain = without_code(block);
        match block.kind {
            Kind::Titles => guard = column(block, "Guard"),
            Kind::Row => {
                let cell = cells(&plain).get(guard).copied().unwrap_or("").to_string();
                found.extend(edits_in(&cell, block, tree).into_iter().map(|(_, edit)| edit));
            }
            Kind::Paragraph | Kind::Item => {
                let edits = edits_in(&plain, block, tree).into_iter();
                found.extend(edits.map(|(place, edit)| Named {
                    line: block.line_at(place),
                    ..edit
                }));
            }
            _ => {}
        }
    }
    found
}

/// The place of a column; past all columns where there is none.
fn column(titles: &Block, title: &str) -> usize {
    let cells = cells(&titles.text);
    cells.iter().position(|cell| *cell == title).unwrap_or(cells.len())
}

/// The words with a low line in a block's text, each with its place.
fn edits_in(text: &str, block: &Block, tree: &Tree) -> Vec<(usize, Named)> {
    let words = words_in(text);
    let mut others: Vec<&str> = crates_of(block, tree);
    others.extend(words.iter().filter_map(|(_, word)| word.of_crate(tree)));
    let edit = |(place, word): &(usize, Word)| {
        let crates = word.of_crate(tree).map_or(others.clone(), |of_crate| vec![of_crate]);
        let edit = Named {
            line: block.line,
            name: word.name.to_string(),
            folder: FOLDERS[usize::from(word.is_marked)],
            crates: crates.into_iter().map(str::to_string).collect(),
        };
        (*place, edit)
    };
    words.iter().map(edit).collect()
}

/// A word with a low line, and what follows it: a +, and a text in round brackets.
struct Word<'a> {
    name: &'a str,
    is_marked: bool,
    gloss: Option<&'a str>,
}

impl<'a> Word<'a> {
    fn of(name: &'a str, rest: &'a str) -> Word<'a> {
        let after = rest.strip_prefix('+');
        let gloss = after.unwrap_or(rest).trim_start().strip_prefix('(');
        Word {
            name,
            is_marked: after.is_some(),
            gloss: gloss.and_then(|gloss| Some(gloss.split_once(')')?.0)),
        }
    }

    fn of_crate(&self, tree: &Tree) -> Option<&'a str> {
        self.gloss.filter(|gloss| tree.crates().contains(gloss))
    }
}

fn words_in(text: &str) -> Vec<(usize, Word<'_>)> {
    let is_part = |c: char| c.is_ascii_alphanumeric() || c == '_';
    let mut found = vec![];
    let mut place = 0;
    while let Some(start) = text[place..].find(is_part).map(|next| place + next) {
        let length = text[start..].find(|c| !is_part(c)).unwrap_or(text.len() - start);
        let (name, rest) = text[start..].split_at(length);
        if name.contains('_') {
            found.push((start, Word::of(name, rest)));
        }
        place = start + length;
    }
    found
}
