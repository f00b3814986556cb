//! What holds of every picture, whatever it shows.
use super::stories;
use super::xml::{elements, Element};
use crate::sketch::picture::draw;

/// A part of the picture: left, top, right, bottom.
type Area = [i32; 4];

fn pictures() -> Vec<(&'static str, Vec<Element>)> {
    let read = |(name, story)| {
        (
            name,
            elements(&draw(&story)).unwrap_or_else(|wrong| panic!("{name}: {wrong}")),
        )
    };
    stories::all().into_iter().map(read).collect()
}

/// Where text stands: a character of a monospaced font is at most 62 hundredths of its size wide, one beyond ASCII its size.
fn text_area(text: &Element) -> Area {
    let (x, y, size) = (text.number("x"), text.number("y"), text.number("font-size"));
    let wide = |letter: char| if letter.is_ascii() || letter == '…' { 62 } else { 100 };
    let width = text.text.chars().map(wide).sum::<i32>() * size / 100;
    [x, y - size * 3 / 4, x + width, y + size / 5]
}

fn points(element: &Element) -> Vec<(i32, i32)> {
    let number = |text: &str| text.parse::<i32>().expect("a whole number");
    let point = |pair: &str| {
        pair.split_once(',')
            .map(|(x, y)| (number(x), number(y)))
            .expect("two numbers")
    };
    element.attributes["points"].split(' ').map(point).collect()
}

/// What an element covers, its outline left out; none for what draws nothing itself.
fn area(element: &Element) -> Option<Area> {
    let n = |attribute: &str| element.number(attribute);
    match element.name.as_str() {
        "text" => Some(text_area(element)),
        "rect" => Some([n("x"), n("y"), n("x") + n("width"), n("y") + n("height")]),
        "circle" => Some([n("cx") - n("r"), n("cy") - n("r"), n("cx") + n("r"), n("cy") + n("r")]),
        "line" => {
            let (x, y) = ((n("x1"), n("x2")), (n("y1"), n("y2")));
            Some([x.0.min(x.1), y.0.min(y.1), x.0.max(x.1), y.0.max(y.1)])
        }
        "polyline" | "polygon" => {
            let (xs, ys): (Vec<i32>, Vec<i32>) = points(element).into_iter().unzip();
            Some([*xs.iter().min()?, *ys.iter().min()?, *xs.iter().max()?, *ys.iter().max()?])
        }
        "svg" | "g" | "title" | "defs" | "pattern" | "path" => None,
        other => panic!("{other} is not an element of the picture"),
    }
}

fn meet(one: &Area, other: &Area) -> bool {
    one[0] < other[2] && other[0] < one[2] && one[1] < other[3] && other[1] < one[3]
}

#[test]
fn every_picture_is_well_formed_and_plain() {
    for (name, elements) in pictures() {
        let root = &elements[0];
        assert!(root.name == "svg" && root.is("version", "1.1"), "{name}");
        assert!(root.is("xmlns", "http://www.w3.org/2000/svg"), "{name}");
        for element in &elements {
            let foreign = |key: &&String| key.contains("href") || key.starts_with("on") || *key == "style";
            assert_eq!(element.attributes.keys().find(foreign), None, "{name}: {element:?}");
        }
    }
}

#[test]
fn nothing_exceeds_the_view_box() {
    for (name, elements) in pictures() {
        let (width, height) = (elements[0].number("width"), elements[0].number("height"));
        assert!(elements[0].is("viewBox", &format!("0 0 {width} {height}")), "{name}");
        for element in &elements {
            let Some([left, top, right, bottom]) = area(element) else {
                continue;
            };
            let inside = left >= 0 && top >= 0 && right <= width && bottom <= height;
            assert!(inside, "{name}: {element:?}");
        }
    }
}

#[test]
fn no_text_stands_on_another_and_no_line_runs_through_one() {
    for (name, elements) in pictures() {
        let texts: Vec<(&Element, Area)> = elements
            .iter()
            .filter(|element| element.name == "text")
            .map(|text| (text, text_area(text)))
            .collect();
        let lines: Vec<(&Element, Area)> = elements
            .iter()
            .flat_map(|line| segments(line).into_iter().map(move |area| (line, area)))
            .collect();
        for (place, (text, area)) in texts.iter().enumerate() {
            for (other, on) in texts[place + 1..].iter().chain(&lines) {
                assert!(!meet(area, on), "{name}: {text:?} and {other:?}");
            }
        }
    }
}

/// The strokes of a line, a pixel wide.
fn segments(element: &Element) -> Vec<Area> {
    let stroke = |(x1, y1): (i32, i32), (x2, y2): (i32, i32)| [x1.min(x2), y1.min(y2), x1.max(x2) + 1, y1.max(y2) + 1];
    match element.name.as_str() {
        "line" => vec![stroke(
            (element.number("x1"), element.number("y1")),
            (element.number("x2"), element.number("y2")),
        )],
        "polyline" => points(element).windows(2).map(|ends| stroke(ends[0], ends[1])).collect(),
        _ => vec![],
    }
}

#[test]
fn letters_are_large_enough_and_colours_are_greys_and_one_red() {
    for (name, elements) in pictures() {
        let mut red = false;
        for element in &elements {
            assert!(
                element.name != "text" || element.number("font-size") >= 10,
                "{name}: {element:?}"
            );
            for key in ["fill", "stroke"] {
                let Some(colour) = element.attributes.get(key) else { continue };
                let grey = colour.len() == 4 && colour.starts_with('#') && colour[1..2].repeat(3) == colour[1..];
                let hatched = colour.starts_with("url(#") || colour == "none";
                red |= colour == "#c00";
                assert!(grey || hatched || colour == "#c00", "{name}: {element:?}");
            }
        }
        let wrong = matches!(name, "mistaken" | "withheld" | "odd" | "across" | "breached");
        assert_eq!(
            red, wrong,
            "{name}: red where there is a conflict or a breach, and only there"
        );
    }
}

#[test]
fn the_same_story_gives_the_same_picture() {
    for ((name, one), (_, other)) in stories::all().into_iter().zip(stories::all()) {
        assert_eq!(draw(&one), draw(&other), "{name}");
    }
}

#[test]
fn a_picture_grows_with_its_beats_and_stays_readable() {
    let size = |story| elements(&draw(&story)).map(|elements| (elements[0].number("width"), elements[0].number("height")));
    let (small, large) = (
        size(stories::small()).expect("well formed"),
        size(stories::large()).expect("well formed"),
    );
    assert!((11 * 110..11 * 160).contains(&(small.0 - 184)), "{small:?}");
    assert!((48 * 110..48 * 170).contains(&large.0), "{large:?}");
    assert!(large.1 > 32 * 40, "{large:?}");
}
