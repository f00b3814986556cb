//! Laws and proofs cite the promises of another crate and open none of its definitions by their text: on a line `unfolding`, by
//! `unfold .. in`, or in the `unfolding(..)` of a function's attribute.
use crate::antt::without_comment;
use crate::finding::Finding;
use crate::tree::{crate_of, Tree};
use std::collections::{BTreeMap, BTreeSet};

/// Tables of computed facts, which open whatever they compute with; no law is opened through them.
const TABLES: [&str; 13] = [
    "crates/agreement/proofs/Starred.antt",
    "crates/bench/proofs/EntryTable.antt",
    "crates/bench/proofs/MadeTable.antt",
    "crates/bench/proofs/LimitTable.antt",
    "crates/bench/proofs/Order.antt",
    "crates/bench/proofs/Sample.antt",
    "crates/bench/proofs/WithinTable.antt",
    "crates/bench/proofs/Windows.antt",
    "crates/demand/proofs/Computed.antt",
    "crates/demand/proofs/Needed.antt",
    "crates/demand/proofs/Witness.antt",
    "crates/run/proofs/HeldTables.antt",
    "crates/run/proofs/RollTables.antt",
];

/// Each opening outside the tables.
pub fn check(tree: &Tree) -> Vec<Finding> {
    let crates = tree.crates();
    let read = tree.files().filter(|(path, _)| !TABLES.contains(path));
    read.flat_map(|(path, text)| match part_of(path) {
        Some(Part::Laws) => openings(path, text, &crates),
        Some(Part::Code) => attributes(path, text, &crates),
        None => vec![],
    })
    .collect()
}

enum Part {
    Laws,
    Code,
}

fn part_of(path: &str) -> Option<Part> {
    let (folder, _) = path.strip_prefix(&format!("crates/{}/", crate_of(path)?))?.split_once('/')?;
    match folder {
        "specs" | "proofs" if path.ends_with(".antt") => Some(Part::Laws),
        "src" if path.ends_with(".rt") => Some(Part::Code),
        _ => None,
    }
}

fn told(path: &str, line: usize, (owner, name): (String, &str)) -> Finding {
    Finding::new(path, line, format!("opens `{name}` of {owner} by its text: cite a law of it"))
}

/// What a file of laws opens of other crates and of the tables.
fn openings(path: &str, text: &str, crates: &BTreeSet<&str>) -> Vec<Finding> {
    let lines: Vec<&str> = text.lines().map(without_comment).collect();
    let names = Names::in_file(crate_of(path).unwrap_or_default(), crates, &lines);
    let opened = unfolded(&lines).into_iter().chain(unfolded_in(&lines));
    let mut found: Vec<(usize, &str)> = opened.collect();
    found.sort();
    let found = found
        .into_iter()
        .filter_map(|(line, word)| Some((line, names.foreign(word)?)));
    found.map(|(line, what)| told(path, line, what)).collect()
}

/// What the attributes of a file of code open: paths such as `crate::specs::M::name`, in `unfolding(..)`.
fn attributes(path: &str, text: &str, crates: &BTreeSet<&str>) -> Vec<Finding> {
    let own = crate_of(path).unwrap_or_default();
    let mut found = vec![];
    for (place, mark) in text.match_indices("unfolding(") {
        let line = 1 + text[..place].matches('\n').count();
        let opened = text[place + mark.len()..].split(')').next().unwrap_or("");
        for item in opened.split(',').map(str::trim) {
            let module = format!("Rattle.{}", item.replace("::", ".").replacen("crate.", &format!("{own}."), 1));
            let named = module
                .rsplit_once('.')
                .and_then(|(module, name)| Some((owner(own, crates, module)?, name.to_string())));
            found.extend(named.map(|(owner, name)| told(path, line, (owner, &name))));
        }
    }
    found
}

/// The words after each `unfolding`, with their lines: those of its line, and of the lines below that are further in.
fn unfolded<'a>(lines: &[&'a str]) -> Vec<(usize, &'a str)> {
    let mut words = vec![];
    let mut within = None;
    for (place, line) in lines.iter().enumerate().filter(|(_, line)| !line.trim().is_empty()) {
        let indent = line.len() - line.trim_start().len();
        let mut here = line.split_whitespace().peekable();
        if here.next_if_eq(&"unfolding").is_some() {
            within = Some(indent);
        } else if within.is_none_or(|start| indent <= start) {
            within = None;
        }
        if within.is_some() {
            words.extend(here.map(|word| (place + 1, word)));
        }
    }
    words
}

/// The words between `unfold` and the `in` of its line.
fn unfolded_in<'a>(lines: &[&'a str]) -> Vec<(usize, &'a str)> {
    let mut words = vec![];
    for (place, line) in lines.iter().enumerate() {
        let mut is_open = false;
        for word in line.split([' ', '(', ')', '{', '}']) {
            match word {
                "unfold" => is_open = true,
                "in" => is_open = false,
                _ if is_open && !word.is_empty() => words.push((place + 1, word)),
                _ => {}
            }
        }
    }
    words
}

/// What the words of a file stand for: a name of a module, or a module.
struct Names<'a> {
    own: &'a str,
    crates: &'a BTreeSet<&'a str>,
    names: BTreeMap<String, (String, String)>,
    modules: BTreeMap<String, String>,
}

impl<'a> Names<'a> {
    fn in_file(own: &'a str, crates: &'a BTreeSet<&'a str>, lines: &[&str]) -> Names<'a> {
        let mut names = BTreeMap::new();
        let mut modules = BTreeMap::new();
        for import in imports(lines) {
            let (module, items) = import.split_once(".{").unwrap_or((&import, ""));
            let (module, alias) = renamed(module);
            modules.insert(alias.to_string(), module.to_string());
            for item in items.trim_end_matches('}').split(',') {
                let (name, alias) = renamed(item);
                names.insert(alias.to_string(), (module.to_string(), name.to_string()));
            }
        }
        Names {
            own,
            crates,
            names,
            modules,
        }
    }

    /// Whose a word is and its name there, where the crate may not open it.
    fn foreign<'w>(&'w self, word: &'w str) -> Option<(String, &'w str)> {
        let (module, name) = match self.names.get(word) {
            Some((module, name)) => (module.as_str(), name.as_str()),
            None => word.rsplit_once('.')?,
        };
        let module = self.modules.get(module).map_or(module, String::as_str);
        Some((owner(self.own, self.crates, module)?, name))
    }
}

/// A name, and the one that it goes by: `name`, or `name as alias`.
fn renamed(item: &str) -> (&str, &str) {
    let (name, alias) = item.split_once(" as ").unwrap_or((item, item));
    (name.trim(), alias.trim())
}

/// Each import without its `use`, on one line: a list of names may go over several.
fn imports(lines: &[&str]) -> Vec<String> {
    let mut all: Vec<String> = vec![];
    let mut is_open = false;
    for line in lines {
        let start = line.trim_start().trim_start_matches("pub ").strip_prefix("use ");
        match (start, all.last_mut()) {
            (Some(start), _) => all.push(start.trim().to_string()),
            (None, Some(last)) if is_open => last.push_str(line.trim()),
            _ => {}
        }
        is_open = all.last().is_some_and(|last| last.contains('{') && !last.contains('}'));
    }
    all
}

/// Whose a module is: another crate's of the repository, or a table's; none where a crate may open it.
fn owner(own: &str, crates: &BTreeSet<&str>, module: &str) -> Option<String> {
    let (name, path) = module.strip_prefix("Rattle.")?.split_once('.')?;
    let file = format!("crates/{name}/{}.antt", path.replace('.', "/"));
    if name != own {
        crates.contains(name).then(|| format!("crate {name}"))
    } else {
        TABLES.contains(&file.as_str()).then(|| format!("the table {file}"))
    }
}
