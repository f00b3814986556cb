//! A reader of the XML that the picture uses: elements with quoted attributes, and escaped text.
use std::collections::BTreeMap;

#[derive(Debug)]
pub struct Element {
    pub name: String,
    pub attributes: BTreeMap<String, String>,
    /// The text directly in it, unescaped.
    pub text: String,
}

impl Element {
    pub fn number(&self, attribute: &str) -> i32 {
        let value = &self.attributes[attribute];
        value
            .parse()
            .unwrap_or_else(|_| panic!("{attribute} of {self:?} is a whole number"))
    }

    pub fn is(&self, attribute: &str, value: &str) -> bool {
        self.attributes.get(attribute).is_some_and(|is| is == value)
    }
}

/// All elements in the order in which they open, or what is wrong.
pub fn elements(text: &str) -> Result<Vec<Element>, String> {
    let mut rest = text
        .strip_prefix("<?xml version=\"1.0\" encoding=\"UTF-8\"?>")
        .ok_or("no declaration")?;
    let (mut all, mut open): (Vec<Element>, Vec<usize>) = (vec![], vec![]);
    while let Some(start) = rest.find('<') {
        let text = unescaped(&rest[..start])?;
        match open.last() {
            Some(&inside) => all[inside].text.push_str(&text),
            None if text.trim().is_empty() => {}
            None => return Err(format!("text outside: {text}")),
        }
        let end = rest.find('>').ok_or("a tag without an end")?;
        let tag = rest.get(start + 1..end).ok_or("a > outside a tag")?;
        rest = &rest[end + 1..];
        if let Some(name) = tag.strip_prefix('/') {
            let inside = open.pop().ok_or("closed, not opened")?;
            if all[inside].name != name {
                return Err(format!("{name} closes {}", all[inside].name));
            }
            continue;
        }
        if open.is_empty() && !all.is_empty() {
            return Err("two roots".to_string());
        }
        all.push(element(tag.trim_end_matches('/'))?);
        if !tag.ends_with('/') {
            open.push(all.len() - 1);
        }
    }
    match (open.is_empty(), rest.trim().is_empty()) {
        (true, true) => Ok(all),
        _ => Err(format!("not closed, or text at the end: {rest}")),
    }
}

fn element(tag: &str) -> Result<Element, String> {
    let (name, mut rest) = tag.split_once(' ').unwrap_or((tag, ""));
    if name.is_empty() || !name.chars().all(|letter| letter.is_ascii_alphanumeric()) {
        return Err(format!("a name: {name}"));
    }
    let mut attributes = BTreeMap::new();
    while !rest.trim().is_empty() {
        let (key, more) = rest
            .trim_start()
            .split_once("=\"")
            .ok_or_else(|| format!("an attribute: {rest}"))?;
        let (value, more) = more.split_once('"').ok_or_else(|| format!("a quote: {more}"))?;
        if !key.chars().all(|letter| letter.is_ascii_alphanumeric() || letter == '-')
            || !(more.is_empty() || more.starts_with(' '))
        {
            return Err(format!("an attribute: {key}"));
        }
        if attributes.insert(key.to_string(), unescaped(value)?).is_some() {
            return Err(format!("twice: {key}"));
        }
        rest = more;
    }
    let (name, text) = (name.to_string(), String::new());
    Ok(Element { name, attributes, text })
}

fn unescaped(text: &str) -> Result<String, String> {
    const NAMES: [(&str, &str); 5] = [("amp", "&"), ("lt", "<"), ("gt", ">"), ("quot", "\""), ("apos", "'")];
    if text.contains(['<', '>']) || text.chars().any(|letter| letter.is_control() && letter != '\n') {
        return Err(format!("a sign that must be escaped: {text}"));
    }
    let mut parts = text.split('&');
    let mut plain = parts.next().unwrap_or_default().to_string();
    for part in parts {
        let (name, more) = part.split_once(';').ok_or_else(|| format!("an & alone: {part}"))?;
        let (_, letter) = NAMES
            .iter()
            .find(|(known, _)| *known == name)
            .ok_or_else(|| format!("unknown: &{name};"))?;
        plain.push_str(letter);
        plain.push_str(more);
    }
    Ok(plain)
}

#[test]
fn the_reader_refuses_what_is_not_well_formed() {
    let read = |body: &str| elements(&format!("<?xml version=\"1.0\" encoding=\"UTF-8\"?>{body}"));
    let good = read("<svg a=\"1\"><g><title>x &lt; y</title></g><line b-c=\"&quot;\"/></svg>\n").expect("well formed");
    let names: Vec<&str> = good.iter().map(|element| element.name.as_str()).collect();
    assert_eq!(names, ["svg", "g", "title", "line"]);
    assert_eq!((good[2].text.as_str(), good[3].attributes["b-c"].as_str()), ("x < y", "\""));
    let bad = [
        "<svg>",
        "</svg>",
        "<a><b></a></b>",
        "<a b=1/>",
        "<a b=\"1/>",
        "<a>&</a>",
        "<a>&nbsp;</a>",
        "<a>></a>",
        "<a/><b/>",
        "x<a/>",
        "<a b=\"1\"c=\"2\"/>",
        "<a b=\"1\" b=\"2\"/>",
        "<a>\u{1}</a>",
        "<a",
        "<a/>x",
    ];
    for body in bad {
        assert!(read(body).is_err(), "{body}");
    }
    assert!(elements("<svg/>").is_err());
}
