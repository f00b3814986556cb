//! That conflicts, breaches and what goes astray are in the picture, and seen without colours too.
use super::seen::Seen;
use super::stories::{across, breached, least, mistaken, odd, passed_on, withheld};
use super::xml::Element;
use crate::history::bench::Rules;
use crate::sketch::story::Story;

const THICK_RED: [(&str, &str); 2] = [("stroke", "#c00"), ("stroke-width", "3")];

#[test]
fn a_conflict_is_red_and_thick_and_said_in_words() {
    let seen = Seen::of(&mistaken());
    let (frames, lines) = (seen.drawn("rect", &THICK_RED), seen.drawn("polyline", &THICK_RED));
    assert_eq!(frames.len(), 6 + 1 + 1, "six decisions, the verdict, the legend");
    assert_eq!(lines.len(), 1 + 1, "one, and one in the legend");
    let words = "CONFLICT, two histories: bench 0 decides [5] at beat 6, and bench 0 decides [6 7] at beat 10; neither log \
         starts with the other.";
    assert_eq!((seen.count("CONFLICT"), seen.count(words)), (6 + 1 + 1, 1));
    assert_eq!(
        seen.drawn("line", &[("stroke", "#c00"), ("stroke-width", "2")]).len(),
        2 * (6 + 1),
        "crosses"
    );
    assert_eq!(seen.count("No two decided logs conflict."), 1, "by the rules");
    assert_eq!((seen.count("PARTED"), seen.count("Marked as parted: {0,1,2}.")), (3 + 1, 1));
    assert_eq!(seen.count("stands [5]"), 3);
}

#[test]
fn the_line_of_a_conflict_joins_the_two_marks() {
    for story in [mistaken(), withheld(), across()] {
        let seen = Seen::of(&story);
        let line = seen.drawn("polyline", &THICK_RED)[0];
        let number = |text: &str| text.parse::<i32>().expect("a number");
        let points = line.attributes["points"].split(' ').filter_map(|point| point.split_once(','));
        let points: Vec<(i32, i32)> = points.map(|(x, y)| (number(x), number(y))).collect();
        let meets = |mark: &&&Element, (x, y): (i32, i32)| {
            let (left, top) = (mark.number("x"), mark.number("y"));
            (left - 2..=left).contains(&x) && (top..top + mark.number("height")).contains(&y)
        };
        let marks = seen.drawn("rect", &THICK_RED);
        let at = |end: (i32, i32)| marks.iter().filter(|mark| meets(mark, end)).count();
        assert_eq!((at(points[0]), at(points[points.len() - 1])), (1, 1));
        assert_ne!(points[0], points[points.len() - 1]);
    }
}

#[test]
fn each_mistake_has_a_heading_that_says_it() {
    for rules in Rules::MISTAKES {
        let mut story = least();
        story.runs[0].rules = rules;
        let seen = Seen::of(&story);
        let mut headings = seen
            .texts()
            .filter(|text| text.starts_with("With the mistake: ") && text.ends_with(" (the model)"));
        let heading = headings.next().expect("a heading");
        let word = match rules {
            Rules::Paper => unreachable!("no mistake"),
            Rules::EquivocatorsUnheard => "equivocators",
            Rules::MajorityOfAll => "a majority of n",
            Rules::HalfIsEnough => "at least half",
            Rules::SnapshotsSwapped => "swapped",
            Rules::SnapshotJudges => "judged by a snapshot",
            Rules::VoteWithoutLock => "without the lock",
        };
        assert!(heading.contains(word), "{heading}");
    }
}

#[test]
fn every_breach_is_noted_and_marked() {
    let seen = Seen::of(&withheld());
    let notes: Vec<&str> = seen.texts().filter(|text| text.contains("of the premise")).collect();
    let expected = [
        "BREACH 1 of the premise on delivery: LOG v0 of 0 [5], made by 0 at beat 1, was not with 1 by its act at beat 2",
        "BREACH 2 of the premise on delivery: LOG v0 of 1 [6], made by 1 at beat 1, was not with 0 by its act at beat 2",
    ];
    assert_eq!(notes, expected);
    let marks: Vec<&str> = seen
        .texts()
        .filter(|text| text.starts_with("BREACH") && text.len() == 8)
        .collect();
    assert_eq!(
        marks,
        ["BREACH 2", "BREACH 1", "BREACH 1"],
        "at bench 0, at bench 1, in the legend"
    );
    assert_eq!(seen.drawn("polygon", &[("stroke", "#c00")]).len(), 3);
    assert_eq!(seen.count("All three premises hold."), 0);
}

/// A million views before the first one shown are one note.
#[test]
fn breaches_of_all_premises_are_noted_and_alike_ones_together() {
    let seen = Seen::of(&odd());
    let notes: Vec<&str> = seen.texts().filter(|text| text.contains("of the premise")).collect();
    let expected = [
        "BREACH 1 of the premise on numbers: bench 0 took LOG v1000000 of 1 [1 2 3 4 5 6 7 8 9*0] at beat 4000002, \
         which bench 1 never made",
        "BREACH 2 of the premise on the majority: in views 0 to 999999 nobody counts (awake at 4v-1 and 4v+1, in view 0 \
         at 1), against 3 rule-breakers",
        "BREACH 3 of the premise on the majority: in view 1000000 only {0,1} count (awake at beats 3999999 and \
         4000001), against 3 rule-breakers",
    ];
    assert_eq!(notes, expected);
    let marks: Vec<&str> = seen
        .texts()
        .filter(|text| text.starts_with("BREACH") && text.len() == 8)
        .collect();
    assert_eq!(
        marks,
        ["BREACH 1", "BREACH 2", "BREACH 3", "BREACH 1"],
        "at bench 0, twice on the majority, in the legend"
    );
}

#[test]
fn the_mark_of_many_breaches_is_cut_between_two_numbers() {
    let seen = Seen::of(&breached());
    let marks: Vec<&str> = seen
        .texts()
        .filter(|text| text.starts_with("BREACH") && !text.contains("premise"))
        .collect();
    assert_eq!(
        marks,
        ["BREACH 1,3,5,…", "BREACH 2,4,6,…", "BREACH 1"],
        "at benches 1 and 2, in the legend"
    );
}

#[test]
fn below_the_verdict_stands_what_demand_3_says() {
    let said = |story: &Story| {
        let seen = Seen::of(story);
        let texts: Vec<String> = seen.texts().map(str::to_string).collect();
        let verdict = |text: &String| text.starts_with("No two decided") || text.starts_with("CONFLICT, two");
        let places = (0..texts.len()).filter(|&place| verdict(&texts[place]));
        places.map(|place| texts[place + 1..place + 3].to_vec()).collect::<Vec<_>>()
    };
    let (of_mistaken, of_least) = (said(&mistaken()), said(&least()));
    assert_eq!(of_mistaken[0][0], "The premises hold, so demand 3 promises this.");
    assert_eq!(of_mistaken[1][0], "The premises hold: the mistake alone did this.");
    assert_eq!(
        of_least,
        [["Nothing was decided.", "The premises hold, so demand 3 promises this."]]
    );
}

#[test]
fn what_is_lost_has_a_cross_and_what_comes_when_the_sketch_says_a_circle() {
    let seen = Seen::of(&withheld());
    let words = ["lost LOG [5] of 0", "sent LOG [6] of 1", "comes LOG [6] of 1", "passes on"];
    assert_eq!(
        words.map(|words| seen.count(words)),
        [1 + 1, 1, 1, 0],
        "the legend has the first"
    );
    assert_eq!(seen.drawn("polyline", &[("stroke-dasharray", "4 4")]).len(), 2);
    let strokes = seen.drawn("line", &[("stroke-width", "2"), ("stroke", "#000")]);
    let slanting = |line: &&&Element| line.number("x1") != line.number("x2") && line.number("y1") != line.number("y2");
    assert_eq!(
        strokes.iter().filter(slanting).count(),
        2 * (1 + 1),
        "a cross, and one in the legend"
    );
    let circles = |fill: &str| seen.drawn("circle", &[("r", "3"), ("fill", fill)]).len();
    assert_eq!((circles("#fff"), circles("#000")), (1 + 1, 1 + 1));
}

/// Bench 0 passes on a LOG that bench 2 never gets and bench 3 at a beat that is named; bench 1 has it from the rule-breaker.
#[test]
fn what_is_passed_on_and_goes_astray_says_so_once_where_its_lines_start() {
    let seen = Seen::of(&passed_on());
    let counts = ["lost LOG [7] of 31", "sent LOG [7] of 31", "passes on LOG [7] of 31"].map(|words| seen.count(words));
    assert_eq!(counts, [1, 1, 1]);
    let lines = seen.drawn("polyline", &[("stroke-dasharray", "4 4")]);
    assert_eq!(lines.len(), 2);
    let mark = seen.elements.iter().find(|element| element.text == "passes on LOG [7] of 31");
    let mark = mark.expect("counted above");
    for line in lines {
        let start = line.attributes["points"]
            .split(' ')
            .next()
            .and_then(|point| point.split_once(','));
        let (x, y) = start.expect("a point");
        assert_eq!(x.parse(), Ok(mark.number("x") - 5));
        assert!(
            y.parse::<i32>()
                .is_ok_and(|y| (mark.number("y") - 11..mark.number("y")).contains(&y)),
            "{y}"
        );
    }
}
