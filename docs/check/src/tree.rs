//! The repository's files. A check takes them as a value, so that it can be tried on samples.
use std::collections::{BTreeMap, BTreeSet};
use std::path::Path;
use std::{env, fs, io};

/// Texts by path from the root, with `/` between the parts.
#[derive(Debug, Default)]
pub struct Tree {
    files: BTreeMap<String, String>,
}

impl Tree {
    pub fn of(files: &[(&str, &str)]) -> Tree {
        let files = files.iter().map(|(path, text)| (path.to_string(), text.to_string()));
        Tree { files: files.collect() }
    }

    /// The repository that this package stands in: as cargo says when the checks are run, not where they were built.
    pub fn of_repository() -> io::Result<Tree> {
        let mut tree = Tree::default();
        let package = env::var("CARGO_MANIFEST_DIR").map_err(io::Error::other)?;
        tree.read_folder(&Path::new(&package).join("../.."), "")?;
        Ok(tree)
    }

    fn read_folder(&mut self, folder: &Path, name: &str) -> io::Result<()> {
        for entry in fs::read_dir(folder)? {
            let entry = entry?;
            let last = entry.file_name().to_string_lossy().into_owned();
            let path = if name.is_empty() {
                last.clone()
            } else {
                format!("{name}/{last}")
            };
            // what is built is no source
            if entry.file_type()?.is_dir() {
                if last != "target" && last != "out" && last != ".git" {
                    self.read_folder(&entry.path(), &path)?;
                }
            } else {
                let bytes = fs::read(entry.path())?;
                self.files.insert(path, String::from_utf8_lossy(&bytes).into_owned());
            }
        }
        Ok(())
    }

    pub fn text(&self, path: &str) -> Option<&str> {
        self.files.get(path).map(String::as_str)
    }

    pub fn files(&self) -> impl Iterator<Item = (&str, &str)> {
        self.files.iter().map(|(path, text)| (path.as_str(), text.as_str()))
    }

    /// Whether there is such a file or folder.
    pub fn exists(&self, path: &str) -> bool {
        let Some(path) = resolved("", path) else { return false };
        let within = format!("{path}/");
        path.is_empty() || self.files.contains_key(&path) || self.files.keys().any(|file| file.starts_with(&within))
    }

    /// The names of the crates.
    pub fn crates(&self) -> BTreeSet<&str> {
        self.files.keys().filter_map(|path| crate_of(path)).collect()
    }
}

/// The crate that a file is in.
pub fn crate_of(path: &str) -> Option<&str> {
    let (name, _) = path.strip_prefix("crates/")?.split_once('/')?;
    Some(name)
}

/// The path from the root of what `target` means in a folder; none outside the repository.
pub fn resolved(folder: &str, target: &str) -> Option<String> {
    let mut parts: Vec<&str> = vec![];
    for part in folder.split('/').chain(target.split('/')) {
        match part {
            "" | "." => {}
            ".." => {
                parts.pop()?;
            }
            _ => parts.push(part),
        }
    }
    Some(parts.join("/"))
}

/// The folder of a document, as its links are relative to it.
pub fn folder_of(path: &str) -> &str {
    path.rsplit_once('/').map_or("", |(folder, _)| folder)
}
