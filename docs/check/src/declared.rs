//! What each source file declares.
use crate::tree::{crate_of, Tree};
use crate::{antt, code};
use std::collections::{BTreeMap, BTreeSet};

/// Where the sources are; of the documents, these checks.
const ROOTS: [&str; 3] = ["crates/", "model/", "docs/check/"];

/// The declared names by file, for all sources.
pub struct Declared {
    names: BTreeMap<String, BTreeSet<String>>,
}

impl Declared {
    pub fn of(tree: &Tree) -> Declared {
        let sources = tree
            .files()
            .filter(|(path, _)| ROOTS.iter().any(|root| path.starts_with(root)));
        let names = sources.filter_map(|(path, text)| Some((path.to_string(), names(path, text)?)));
        Declared { names: names.collect() }
    }

    /// Whether a file declares a name. Of `A.b` and `A::b` it declares each part, but what stands before `::` may be the crate
    /// or the module that the file is.
    pub fn in_file(&self, path: &str, name: &str) -> bool {
        let Some(names) = self.names.get(path) else { return false };
        let scopes: Vec<&str> = name.split("::").collect();
        let Some((last, before)) = scopes.split_last() else {
            return false;
        };
        let is_scope = |part: &str| is_declared(names, part) || crate_of(path) == Some(part) || module_of(path) == part;
        before.iter().all(|part| is_scope(part)) && is_declared(names, last)
    }

    /// Those of the names that neither a file nor, where the path is a folder, a file below it declares.
    pub fn missing_below<'a>(&self, path: &str, names: &[&'a str]) -> Vec<&'a str> {
        let folder = format!("{path}/");
        let is_meant = |file: &str| file == path || file.starts_with(&folder);
        let files: Vec<&String> = self.names.keys().filter(|file| is_meant(file)).collect();
        let is_missing = |name: &&&str| !files.iter().any(|file| self.in_file(file, name));
        names.iter().filter(is_missing).copied().collect()
    }

    pub fn anywhere(&self, name: &str) -> bool {
        self.names.keys().any(|file| self.in_file(file, name))
    }
}

/// The names that a text declares, where it is a source.
fn names(path: &str, text: &str) -> Option<BTreeSet<String>> {
    let (_, kind) = path.rsplit_once('.')?;
    match kind {
        "antt" => Some(antt::declared(text)),
        "rt" | "rs" => Some(code::declared(text)),
        _ => None,
    }
}

fn is_declared(names: &BTreeSet<String>, name: &str) -> bool {
    names.contains(name) || (name.contains('.') && name.split('.').all(|part| names.contains(part)))
}

fn module_of(path: &str) -> &str {
    let file = path.rsplit('/').next().unwrap_or(path);
    file.split('.').next().unwrap_or(file)
}
