//! What is wrong with a sketch, in words for who wrote it.
use super::words::Word;
use std::fmt;

/// The place of a fault, both numbers from 1 and columns counted in characters; what could stand there, and what does.
#[derive(Clone, PartialEq, Eq, Debug)]
pub struct Fault {
    pub line: usize,
    pub column: usize,
    pub expected: String,
    pub found: String,
}

impl Fault {
    pub(super) fn at(word: &Word, expected: impl Into<String>) -> Fault {
        Fault {
            line: word.line,
            column: word.column,
            expected: expected.into(),
            found: quoted(&word.text),
        }
    }

    pub(super) fn at_end(text: &str, expected: impl Into<String>) -> Fault {
        let last = text.rsplit('\n').next().unwrap_or_default();
        Fault {
            line: text.split('\n').count(),
            column: last.trim_end().chars().count() + 1,
            expected: expected.into(),
            found: "the end of the sketch".to_string(),
        }
    }
}

impl fmt::Display for Fault {
    fn fmt(&self, f: &mut fmt::Formatter) -> fmt::Result {
        let Fault {
            line,
            column,
            expected,
            found,
        } = self;
        write!(f, "line {line}, column {column}: expected {expected}, found {found}")
    }
}

impl std::error::Error for Fault {}

pub(super) fn quoted(word: &str) -> String {
    format!("'{word}'")
}
