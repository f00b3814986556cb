//! The definitions of reference links, at the end of a document.

/// [`name`]: target
#[derive(Debug, Clone, PartialEq, Eq)]
pub struct Definition {
    pub line: usize,
    pub name: String,
    pub target: String,
}

/// A document's text, and the definitions below it.
#[derive(Debug, PartialEq, Eq)]
pub struct Parted {
    pub body: String,
    pub definitions: Vec<Definition>,
    /// the line of the first definition, where no blank line parts it from the text: then it is text itself
    pub joined: Option<usize>,
}

pub fn part(text: &str) -> Parted {
    let lines: Vec<&str> = text.lines().collect();
    let is_text = |line: &&str| !line.trim().is_empty() && definition(line).is_none();
    let from = lines.iter().rposition(is_text).map_or(0, |last| last + 1);
    let below = lines.iter().enumerate().skip(from);
    let definitions = below.filter_map(|(index, line)| {
        let (name, target) = definition(line)?;
        Some(Definition {
            line: index + 1,
            name: name.to_string(),
            target: target.to_string(),
        })
    });
    let is_joined = from > 0 && lines.get(from).is_some_and(|line| !line.trim().is_empty());
    Parted {
        body: lines[..from].join("\n"),
        definitions: definitions.collect(),
        joined: is_joined.then_some(from + 1),
    }
}

/// The name and the target of a line that is a definition.
fn definition(line: &str) -> Option<(&str, &str)> {
    let (name, target) = line.strip_prefix("[`")?.split_once("`]: ")?;
    let target = target.trim();
    let is_plain = !name.contains('`') && !target.is_empty() && !target.contains(char::is_whitespace);
    is_plain.then_some((name, target))
}
