//! The names that a file of Rattle or Rust declares: functions, types with their fields and variants, constants, modules.
use std::collections::BTreeSet;

pub fn declared(text: &str) -> BTreeSet<String> {
    let tokens = tokens(text);
    let mut names = BTreeSet::new();
    let mut next = 0;
    while next < tokens.len() {
        let rest = &tokens[next..];
        next += match rest[0].as_str() {
            "use" => upto(rest, ";"),
            "ensures" | "requires" => past_braces(rest),
            "ghost" if ghost(rest).is_some() => {
                names.extend(ghost(rest));
                past_braces(rest)
            }
            "fn" | "const" | "static" | "type" | "trait" | "mod" | "struct" | "enum" => {
                names.extend(name_after(rest));
                names.extend(members(rest));
                1
            }
            _ => 1,
        };
    }
    names
}

/// The name that a declaring word is followed by: none in a type such as `fn(u8)`, `*const u8` or `&'static str`.
fn name_after(rest: &[String]) -> Option<String> {
    let name = rest.get(1).filter(|name| is_word(name))?;
    let is_value = matches!(rest[0].as_str(), "const" | "static");
    (!is_value || rest.get(2)? == ":").then(|| name.clone())
}

/// The name of a ghost field or member: `ghost name: { .. }`, `ghost name = { .. }`.
fn ghost(rest: &[String]) -> Option<String> {
    let [_, name, mark, brace, ..] = rest else { return None };
    let is_ghost = is_word(name) && matches!(mark.as_str(), ":" | "=") && brace == "{";
    is_ghost.then(|| name.clone())
}

/// The fields of a struct, the variants of an enum.
fn members(rest: &[String]) -> Vec<String> {
    let is_enum = rest[0] == "enum";
    let body = rest.iter().position(|token| matches!(token.as_str(), "{" | ";" | "("));
    let Some(open) = body.filter(|&place| rest[place] == "{" && (is_enum || rest[0] == "struct")) else {
        return vec![];
    };
    let close = open + past_braces(&rest[open..]);
    let entries = entries(&rest[open + 1..close - 1]);
    let names = entries.iter().filter_map(|entry| {
        let name = entry
            .iter()
            .find(|token| is_word(token) && !matches!(token.as_str(), "pub" | "ghost"))?;
        Some(name.to_string())
    });
    names.collect()
}

/// The parts between the commas of a body, what is in brackets left out.
fn entries(body: &[String]) -> Vec<Vec<&String>> {
    let mut entries = vec![vec![]];
    let mut depth = 0;
    for token in body {
        match token.as_str() {
            "{" | "(" | "[" | "<" => depth += 1,
            "}" | ")" | "]" | ">" => depth -= 1,
            "," if depth == 0 => entries.push(vec![]),
            _ if depth == 0 => entries.last_mut().into_iter().for_each(|entry| entry.push(token)),
            _ => {}
        }
    }
    entries
}

/// How many tokens there are up to one, itself included.
fn upto(rest: &[String], end: &str) -> usize {
    rest.iter()
        .position(|token| token == end)
        .map_or(rest.len(), |place| place + 1)
}

/// How many tokens there are up to the end of the next body in braces.
fn past_braces(rest: &[String]) -> usize {
    let mut depth = 0;
    for (place, token) in rest.iter().enumerate() {
        match token.as_str() {
            "{" => depth += 1,
            "}" if depth <= 1 => return place + 1,
            "}" => depth -= 1,
            _ => {}
        }
    }
    rest.len()
}

fn is_word(token: &str) -> bool {
    token.starts_with(|c: char| c.is_alphabetic() || c == '_')
}

/// Words and single marks; comments and texts in quotes are left out.
fn tokens(text: &str) -> Vec<String> {
    let chars: Vec<char> = text.chars().collect();
    let mut tokens = vec![];
    let mut at = 0;
    while at < chars.len() {
        let rest = &chars[at..];
        let length = skipped(rest);
        if length > 0 {
            at += length;
            continue;
        }
        let word = rest.iter().take_while(|c| c.is_alphanumeric() || **c == '_').count();
        let length = word.max(1);
        if !rest[0].is_whitespace() {
            tokens.push(rest[..length].iter().collect());
        }
        at += length;
    }
    tokens
}

/// The length of a comment or of a text in quotes that starts here.
fn skipped(rest: &[char]) -> usize {
    match rest {
        ['/', '/', ..] => rest.iter().take_while(|&&c| c != '\n').count(),
        ['/', '*', ..] => past(rest, 2, |pair| pair == ['*', '/']) + 1,
        ['"', ..] => quoted(rest),
        ['\'', '\\', ..] => 2 + past(&rest[2..], 1, |pair| pair[0] == '\''),
        ['\'', _, '\'', ..] => 3,
        _ => 0,
    }
}

/// The place past the first pair from `from` on that is meant.
fn past(rest: &[char], from: usize, is_end: impl Fn(&[char]) -> bool) -> usize {
    let place = (from..rest.len()).find(|&place| is_end(&rest[place..rest.len().min(place + 2)]));
    place.map_or(rest.len(), |place| place + 1)
}

fn quoted(rest: &[char]) -> usize {
    let mut place = 1;
    while place < rest.len() && rest[place] != '"' {
        place += if rest[place] == '\\' { 2 } else { 1 };
    }
    place + 1
}
