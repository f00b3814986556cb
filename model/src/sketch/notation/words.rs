//! The words of a line, each with its place.

/// A word and its place, both numbers from 1.
#[derive(Clone, PartialEq, Eq, Debug)]
pub struct Word {
    pub text: String,
    pub line: usize,
    pub column: usize,
}

impl Word {
    pub fn starts_with_digit(&self) -> bool {
        self.text.starts_with(|c: char| c.is_ascii_digit())
    }
}

/// What stands before a line's comment.
pub fn uncommented(line: &str) -> &str {
    line.split('#').next().unwrap_or_default()
}

/// The words of a line without its comment. A mark such as '[' is a word of its own.
pub fn words(line: usize, text: &str) -> Vec<Word> {
    let mut words: Vec<Word> = vec![];
    let mut goes_on = false;
    for (column, c) in (1..).zip(text.chars()) {
        let open = words.last_mut().filter(|_| goes_on);
        goes_on = !c.is_whitespace() && !is_mark(c, open.as_deref());
        match open {
            Some(word) if goes_on => word.text.push(c),
            _ if c.is_whitespace() => {}
            _ => words.push(Word {
                text: c.to_string(),
                line,
                column,
            }),
        }
    }
    words
}

/// '-' is a mark in a range such as 4-6, and a letter in a name such as half-is-enough.
fn is_mark(c: char, open: Option<&Word>) -> bool {
    let within_name = open.is_some_and(|word| !word.starts_with_digit());
    "[]*,".contains(c) || (c == '-' && !within_name)
}

#[cfg(test)]
mod tests {
    use super::*;

    fn found(text: &str) -> Vec<(String, usize)> {
        let words = words(7, uncommented(text));
        assert!(words.iter().all(|word| word.line == 7));
        words.into_iter().map(|word| (word.text, word.column)).collect()
    }

    fn texts(text: &str) -> Vec<String> {
        found(text).into_iter().map(|(word, _)| word).collect()
    }

    #[test]
    fn marks_are_words_of_their_own() {
        assert_eq!(texts("[5,6*3]to"), ["[", "5", ",", "6", "*", "3", "]", "to"]);
        assert_eq!(
            texts("4-6 4 - 6 -4 4--6"),
            ["4", "-", "6", "4", "-", "6", "-", "4", "4", "-", "-", "6"]
        );
        assert_eq!(texts("half-is-enough v1-2 a-"), ["half-is-enough", "v1-2", "a-"]);
    }

    #[test]
    fn columns_count_characters() {
        let expected = [("é", 1), ("2", 4), ("–3", 6), ("x", 9)];
        assert_eq!(
            found("é\t 2 –3\tx"),
            expected.map(|(word, column)| (word.to_string(), column))
        );
    }

    #[test]
    fn a_comment_ends_a_line_and_a_line_may_be_empty() {
        assert_eq!(texts("2 sleeps 3# 4"), ["2", "sleeps", "3"]);
        for text in ["", " \t\r", "# 2 sleeps 3", "  #"] {
            assert_eq!(texts(text), [""; 0]);
        }
    }
}
