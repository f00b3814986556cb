//! What docs/SKETCHES.md teaches can be read.
use super::read;
use crate::history::bench::Rules;

const SKETCHES: &str = include_str!("../../../../docs/SKETCHES.md");

/// The first cells, in code type, of the table below this heading.
fn first_cells(heading: &str) -> Vec<&'static str> {
    let below = SKETCHES.split(heading).nth(1).unwrap_or_default();
    let section = below.split("\n#").next().unwrap_or_default();
    let rows = section.lines().filter_map(|line| line.strip_prefix("| `"));
    rows.filter_map(|row| row.split('`').next()).collect()
}

#[test]
fn the_examples_of_the_statements_are_one_sketch() {
    let examples = first_cells("### Statements");
    let schedule = read(&examples.join("\n")).unwrap_or_else(|fault| panic!("{fault}"));
    assert_eq!((schedule.n, schedule.keepers, schedule.last_beat), (5, vec![0, 1, 2, 3], 10));
    assert_eq!((schedule.offers.len(), schedule.tells.len(), schedule.fates.len()), (2, 3, 3));
}

#[test]
fn the_mistakes_are_those_that_can_be_named() {
    let names = first_cells("### Mistakes");
    let named = |name| read(&format!("benches 1\nbeats 0-0\nmistake {name}")).map(|schedule| schedule.mistake);
    let rules: Vec<_> = names.into_iter().map(named).collect();
    assert_eq!(rules, Rules::MISTAKES.map(|rules| Ok(Some(rules))));
}

#[test]
fn the_faults_are_told_as_they_stand_there() {
    let below = SKETCHES.split("### Faults").nth(1).unwrap_or_default();
    let quoted: Vec<&str> = below.split("```").nth(1).unwrap_or_default().trim().lines().collect();
    let lines = [
        "2 sleeps 12",
        "0 offers 5 at 4\n0 sleeps 4",
        "LOG v0 of 1 never reaches 4",
        "LOG v3 of 1 never reaches 0",
        "2 sleeps 3–5",
    ];
    let told = (6..).zip(lines).map(|(number, line)| {
        let gap = "\n".repeat(number - 3);
        let fault = read(&format!("benches 5\nkeepers 0-3\nbeats 0-10{gap}{line}"));
        fault.map_or_else(|fault| fault.to_string(), |_| "it can be read".to_string())
    });
    assert_eq!(quoted, told.collect::<Vec<_>>());
}
