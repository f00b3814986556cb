//! The lines of a source that a reader must believe.

/// How many lines of a file of definitions are neither blank nor a comment.
pub fn lines_said(text: &str) -> usize {
    let says = |line: &&str| !line.is_empty() && !line.starts_with("--");
    text.lines().map(str::trim).filter(says).count()
}

/// How many lines of a file of code declare what is public and no comment: types and traits, what clauses see a type as (its
/// `impl Model`), and functions that promise something, up to their bodies.
pub fn public_lines(text: &str) -> usize {
    let lines: Vec<&str> = text.lines().collect();
    let items = (0..lines.len()).map(|start| {
        let rest = &lines[start..];
        match words_of(rest[0]) {
            ["pub", "struct" | "enum" | "trait", ..] | ["impl", "Model", "for", _] => declared(rest),
            ["pub", "fn", ..] | ["pub", "const", "fn", _] | ["pub", "extern", _, "fn"] => promised(rest),
            _ => &[],
        }
    });
    let said = |line: &&&str| !line.trim().is_empty() && !line.trim_start().starts_with("//");
    items.map(|item| item.iter().filter(said).count()).sum()
}

/// The first four words of a line.
fn words_of(line: &str) -> [&str; 4] {
    let mut words = line.split_whitespace();
    [(); 4].map(|_| words.next().unwrap_or(""))
}

/// A type, up to the end of its body.
fn declared<'a>(rest: &'a [&'a str]) -> &'a [&'a str] {
    if !rest[0].ends_with('{') {
        return &rest[..1];
    }
    let end = format!("{}}}", indent(rest[0]));
    let length = rest
        .iter()
        .position(|line| *line == end)
        .map_or(rest.len(), |place| place + 1);
    &rest[..length]
}

/// A function up to the brace that stands by itself before its body; nothing where it promises nothing.
fn promised<'a>(rest: &'a [&'a str]) -> &'a [&'a str] {
    let body = format!("{}{{", indent(rest[0]));
    let length = rest.iter().position(|line| *line == body).unwrap_or(rest.len());
    let head = &rest[..length];
    let ends_before = head.iter().any(|line| line.trim_end() == format!("{}}}", indent(rest[0])));
    let promises = head.iter().any(|line| line.trim_start().starts_with("ensures"));
    if promises && !ends_before {
        head
    } else {
        &[]
    }
}

fn indent(line: &str) -> &str {
    &line[..line.len() - line.trim_start().len()]
}
