//! The names that a file of definitions and proofs declares.
//!
//! What stands in a scope is told by its indentation: the file itself, a module, a record (its fields) and a data type (its
//! constructors) declare; what a definition's own `where` has is known to that definition alone.
use std::collections::BTreeSet;

pub fn declared(text: &str) -> BTreeSet<String> {
    let mut reader = Reader::new();
    for line in text.lines() {
        let line = without_comment(line);
        if !line.trim().is_empty() {
            reader.take(line);
        }
    }
    reader.names
}

struct Scope {
    indent: usize,
    declares: bool,
}

struct Reader {
    names: BTreeSet<String>,
    scopes: Vec<Scope>,
    /// the item that is being read is a module, a record or a data type
    in_block: bool,
    /// a `where` was read: whether the scope that it opens declares
    opening: Option<bool>,
}

impl Reader {
    fn new() -> Reader {
        Reader {
            names: BTreeSet::new(),
            scopes: vec![Scope {
                indent: 0,
                declares: true,
            }],
            in_block: false,
            opening: None,
        }
    }

    fn take(&mut self, line: &str) {
        let indent = line.len() - line.trim_start().len();
        self.open_and_close(indent);
        let scope = &self.scopes[self.scopes.len() - 1];
        let declares = scope.declares;
        let words: Vec<&str> = line.split_whitespace().collect();
        if indent == scope.indent {
            let item = Item::of(&words);
            self.in_block = item.is_block;
            if declares {
                self.names.extend(item.names.iter().map(|name| name.to_string()));
            }
        }
        if words.last() == Some(&"where") {
            self.opening = Some(self.in_block && declares);
        }
    }

    fn open_and_close(&mut self, indent: usize) {
        let within = self.scopes[self.scopes.len() - 1].indent;
        if let Some(declares) = self.opening.take().filter(|_| indent > within) {
            self.scopes.push(Scope { indent, declares });
        }
        while self.scopes[self.scopes.len() - 1].indent > indent {
            self.scopes.pop();
        }
    }
}

/// What the first line of an item declares.
struct Item<'a> {
    is_block: bool,
    names: Vec<&'a str>,
}

impl<'a> Item<'a> {
    fn of(words: &[&'a str]) -> Item<'a> {
        let marks = words
            .iter()
            .take_while(|word| matches!(**word, "pub" | "abbrev" | "unfoldable"));
        let words = &words[marks.count()..];
        match words {
            ["module", ..] => Item {
                is_block: true,
                names: vec![],
            },
            ["record" | "data", name, ..] if is_name(name) => Item {
                is_block: true,
                names: vec![name],
            },
            ["ruleset", name, "=", ..] => Item {
                is_block: false,
                names: vec![name],
            },
            _ => Item {
                is_block: false,
                names: typed(words),
            },
        }
    }
}

/// The names before a colon: `name : type`, or several of one type.
fn typed<'a>(words: &[&'a str]) -> Vec<&'a str> {
    let colon = words.iter().position(|word| *word == ":").unwrap_or(0);
    let names = &words[..colon];
    if names.first() != Some(&"let") && names.iter().all(|name| is_name(name)) {
        names.to_vec()
    } else {
        vec![]
    }
}

fn is_name(word: &str) -> bool {
    !word.contains(['(', ')', '{', '}', '=', ';', ',', '→', 'λ', '"']) && word != "_" && word != "|"
}

/// A line up to its comment.
pub fn without_comment(line: &str) -> &str {
    let starts = line.match_indices("--").map(|(place, _)| place);
    let mut comments = starts.filter(|&place| line[..place].is_empty() || line[..place].ends_with(' '));
    comments.next().map_or(line, |place| &line[..place])
}
