//! Sketches that cannot be read, and what is said of each.
mod lines;
mod meant;

use super::read;
use lines::LINES;
use meant::MEANT;

/// Whole sketches, and what is said of each in the indented lines below it.
const WHOLE: &str = "
beats 0-10
benches 4
    line 1, column 1: expected 'benches' or 'title' ('benches N' comes before everything but the title), found 'beats'
title Five
bench 5
    line 2, column 1: expected 'benches' or 'title' ('benches N' comes before everything but the title), found 'bench'
benches # four
    line 1, column 8: expected a number of benches from 1 to 32, found the end of the line
benches 0
    line 1, column 9: expected a number of benches from 1 to 32, found '0'
benches 33
    line 1, column 9: expected a number of benches from 1 to 32, found '33'
benches 4 5
    line 1, column 11: expected the end of the line, found '5'
benches 4
# and again
benches 4
    line 3, column 1: expected another statement ('benches' is said in line 1 already), found 'benches'
title
    line 1, column 6: expected the words of the title, found the end of the line
title One
title Two
    line 2, column 1: expected another statement ('title' is said in line 1 already), found 'title'
benches 4
keepers
    line 2, column 8: expected a bench from 0 to 3 (somebody must keep the rules), found the end of the line
benches 4
keepers none
    line 2, column 9: expected 'all' or a bench from 0 to 3, found 'none'
benches 4
keepers 0-4
    line 2, column 11: expected the end of the range, from 0 to 3, found '4'
benches 4
keepers 2-1
    line 2, column 11: expected the end of the range, from 2 to 3, found '1'
benches 4
keepers 0,
    line 2, column 11: expected a bench from 0 to 3, found the end of the line
benches 4
keepers 0 2 1-3
    line 2, column 13: expected another bench (bench 2 is in this list already), found '1-3'
benches 4
keepers 0 and 1
    line 2, column 11: expected another bench or the end of the line, found 'and'
benches 4
keepers 0
keepers 1
    line 3, column 1: expected another statement ('keepers' is said in line 2 already), found 'keepers'
benches 4
LOG v0 of 1 never reaches 2
keepers 1
    line 3, column 1: expected another statement
    ('keepers' comes before any line that names a bench, and line 2 does), found 'keepers'
benches 4
beats 5
    line 2, column 8: expected '-' and the last beat, as in 0-10, found the end of the line
benches 4
beats 2-50
    line 2, column 9: expected a last beat from 2 to 49 (at most 48 beats, and none above 4000006), found '50'
benches 4
beats 4000007-4000007
    line 2, column 7: expected a first beat from 0 to 4000006, found '4000007'
benches 4
beats 4000000-4000007
    line 2, column 15: expected a last beat from 4000000 to 4000006 (at most 48 beats, and none above 4000006), found '4000007'
benches 4
beats 0-9 11
    line 2, column 11: expected the end of the line, found '11'
benches 4
0 sleeps 1
beats 0-9
    line 2, column 10: expected 'beats A-B' in an earlier line (it comes before any line that names a beat), found '1'
Benches 4
    line 1, column 1: expected 'benches' or 'title' ('benches N' comes before everything but the title),
    found 'Benches' (capital letters matter: 'benches')
benches 4
beats 0–9
    line 2, column 7: expected a first beat from 0 to 4000006, found '0–9' (a range is written with '-')
benches 9
keepers 0-2 4 7-8
beats 0-9
3 sends LOG v0 [] to 0 at 2
6 sends LOG v0 [] to 5 at 2
    line 5, column 22: expected a rule-keeper, 0 to 2, 4 or 7 to 8 (bench 5 breaks the rules), found '5'
benches 2
LOG v2 of 0 never reaches 1
beats 0-7
    line 2, column 5: expected a view of which the sketch has beats, v0 to v1 (LOGs: 4v+1 to 4v+6), found 'v2'
benches 2
beats 7-8
LOG v0 of 0 never reaches 1
    line 3, column 5: expected a view of which the sketch has beats, v1 (LOGs: 4v+1 to 4v+6), found 'v0'
benches 2
beats 6-7
PROPOSAL v1 of 0 never reaches 1
    line 3, column 10: expected no line about a PROPOSAL (the sketch has none of the beats 4v to 4v+1 of any view), found 'v1'
benches 4
mistake half
    line 2, column 9: expected 'equivocators-unheard', 'majority-of-all', 'half-is-enough', 'snapshots-swapped',
    'snapshot-judges' or 'vote-without-lock', found 'half'
benches 4
beats 0-9
3 sends LOG v0 [] to 0 at 2
    line 3, column 1: expected a rule-breaker (bench 3 keeps the rules, as all do where 'keepers' is not said), found '3'
benches 1
beats 4000000-4000006
0 offers 5 at 4000004
    line 3, column 15: expected a beat 4v (a block is used at beats 4v only: 0, 4, 8, .. up to 4000000), found '4000004'
";

/// What stands before each line of the other tables.
const HEAD: &str = "benches 4\nkeepers 0-2\nbeats 0-10\n";

fn told(text: &str) -> String {
    match read(text) {
        Ok(_) => "it can be read".to_string(),
        Err(fault) => fault.to_string(),
    }
}

/// The sketches of a table, each with what is to be said of it.
fn cases(table: &str) -> Vec<(String, String)> {
    let mut cases: Vec<(String, String)> = vec![];
    for line in table.lines().skip(1) {
        match (line.strip_prefix("    "), cases.last_mut()) {
            (Some(message), Some(case)) => case.1 = format!("{} {message}", case.1).trim_start().to_string(),
            (None, Some(case)) if case.1.is_empty() => case.0 = format!("{}\n{line}", case.0),
            _ => cases.push((line.to_string(), String::new())),
        }
    }
    cases
}

/// Fails with all that differ, so that a change of words is seen whole.
fn hold(head: &str, table: &str, least: usize) {
    let cases = cases(table);
    assert!(cases.len() >= least, "only {} cases", cases.len());
    let wrong = cases.iter().filter_map(|(text, expected)| {
        let told = told(&format!("{head}{text}"));
        (told != *expected).then(|| format!("{text}\n    {told}\n"))
    });
    let wrong: String = wrong.collect();
    assert!(wrong.is_empty(), "\n{wrong}");
}

#[test]
fn whole_sketches() {
    hold("", WHOLE, 33);
}

#[test]
fn lines_about_benches_and_messages() {
    hold(HEAD, LINES, 50);
}

#[test]
fn lines_that_mean_something_else() {
    hold(HEAD, MEANT, 20);
}

#[test]
fn what_is_missing_is_missed_at_the_end() {
    let missing = [
        ("", "line 1, column 1: expected 'benches N'"),
        ("title One\r\n# no more\r\n", "line 3, column 1: expected 'benches N'"),
        ("benches 4 ", "line 1, column 10: expected 'beats A-B'"),
    ];
    for (text, start) in missing {
        assert_eq!(
            told(text),
            format!("{start}, which every sketch has, found the end of the sketch")
        );
    }
}

#[test]
fn a_log_has_at_most_64_blocks() {
    let text = format!(
        "benches 2\nkeepers 0\nbeats 0-9\n1 sends LOG v0 [{}8] to 0 at 1",
        "7 ".repeat(64)
    );
    let expected = "line 4, column 145: expected ']' (a log has at most 64 blocks), found '8'";
    assert_eq!(told(&text), expected);
}

#[test]
fn a_title_can_be_shown() {
    let expected = "line 1, column 10: expected characters that can be shown, found a control character";
    assert_eq!(told("title\té  \u{7}"), expected);
}

#[test]
fn the_first_fault_is_told_and_windows_line_ends_are_not_part_of_it() {
    let text = "benches 2\r\nbeats 0-9\r\n0 offers 5 at 4\r\n0 sleeps 4\r\n0 sleeps\r\n";
    let first = "line 3, column 15: expected a beat at which bench 0 is awake (it sleeps at beat 4), found '4'";
    assert_eq!(told(text), first);
    let second = "line 5, column 9: expected a beat from 0 to 9 (the sketch's beats), found the end of the line";
    assert_eq!(told(&text.replace("0 offers", "1 offers")), second);
}
