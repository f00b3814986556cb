//! Going through the words of a line.
use super::fault::{quoted, Fault};
use super::remarks::remark;
use super::words::{uncommented, words, Word};
use std::ops::RangeInclusive;

/// A line and the next word of it.
pub struct Cursor {
    line: usize,
    text: String,
    words: Vec<Word>,
    next: usize,
    /// What was looked for at the next word in vain: a fault there names it too.
    sought: Vec<String>,
}

impl Cursor {
    pub fn new(line: usize, text: &str) -> Cursor {
        let text = uncommented(text).to_string();
        Cursor {
            line,
            words: words(line, &text),
            text,
            next: 0,
            sought: vec![],
        }
    }

    pub fn line(&self) -> usize {
        self.line
    }

    pub fn peek(&self) -> Option<&Word> {
        self.words.get(self.next)
    }

    pub fn take(&mut self) -> Option<Word> {
        let word = self.peek().cloned()?;
        self.next += 1;
        self.sought.clear();
        Some(word)
    }

    /// Takes the next word if it is this one. For marks that need no mention in a fault.
    pub fn skips(&mut self, text: &str) -> bool {
        let is_next = self.peek().is_some_and(|word| word.text == text);
        is_next && self.take().is_some()
    }

    /// Takes the next word if it is this one.
    pub fn takes(&mut self, text: &str) -> bool {
        let taken = self.skips(text);
        if !taken {
            self.seek(quoted(text));
        }
        taken
    }

    pub fn must_take(&mut self, text: &str) -> Result<(), Fault> {
        match self.takes(text) {
            true => Ok(()),
            false => Err(self.stuck()),
        }
    }

    /// Says what could stand here too.
    pub fn seek(&mut self, sought: impl Into<String>) {
        self.sought.push(sought.into());
    }

    /// A number of this range, with its word.
    pub fn number(&mut self, range: RangeInclusive<u64>, expected: &str) -> Result<(u64, Word), Fault> {
        let number = self.peek().and_then(|word| digits(&word.text));
        match number.filter(|number| range.contains(number)).zip(self.peek().cloned()) {
            Some(found) => {
                self.take();
                Ok(found)
            }
            None => Err(self.fault(expected)),
        }
    }

    pub fn end(&mut self) -> Result<(), Fault> {
        match self.peek() {
            None => Ok(()),
            Some(_) => Err(self.fault("the end of the line")),
        }
    }

    /// The rest of the line as it is written, with the column in which it starts.
    pub fn rest(&mut self) -> Option<(usize, String)> {
        let column = self.peek()?.column;
        self.next = self.words.len();
        let rest: String = self.text.chars().skip(column - 1).collect();
        Some((column, rest.trim_end().to_string()))
    }

    /// That neither this nor anything sought stands next.
    pub fn fault(&mut self, expected: impl Into<String>) -> Fault {
        self.seek(expected);
        self.stuck()
    }

    /// That nothing sought stands next.
    pub fn stuck(&self) -> Fault {
        let expected = joined(&self.sought);
        match self.peek() {
            Some(word) => Fault {
                found: quoted(&word.text) + &remark(&word.text, &expected),
                ..Fault::at(word, expected)
            },
            None => Fault {
                line: self.line,
                column: self.text.trim_end().chars().count() + 1,
                expected,
                found: "the end of the line".to_string(),
            },
        }
    }
}

/// A number in digits alone, if it is not too large to be one.
pub fn digits(text: &str) -> Option<u64> {
    let all_digits = text.chars().all(|c| c.is_ascii_digit());
    all_digits.then(|| text.parse().ok()).flatten()
}

/// `a`, `a or b`, `a, b or c`.
pub fn joined(all: &[String]) -> String {
    match all {
        [before @ .., last] if !before.is_empty() => format!("{} or {last}", before.join(", ")),
        _ => all.concat(),
    }
}
