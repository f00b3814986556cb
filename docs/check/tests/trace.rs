//! Samples of a trace: its rows, its names and its edits.
use check::finding::told;
use check::tree::Tree;
use check::{trace_edits, trace_names, trace_rows};

const DOCUMENT: &str = "docs/SAMPLE.md";

/// A row for each number.
fn rows(numbers: &[String]) -> String {
    let rows: String = numbers.iter().map(|number| format!("| {number} | a promise |\n")).collect();
    format!("| No. | Promise |\n|---|---|\n{rows}")
}

fn owed() -> Vec<String> {
    let counts = "D 4 M 6 A 6 B 15 T 12 X 13 P 5 F 8 G 5 S1. 11";
    let counts: Vec<&str> = counts.split(' ').collect();
    let numbers = counts.chunks(2).flat_map(|group| {
        let count: usize = group[1].parse().expect("a count");
        (1..=count).map(move |k| format!("{}{k}", group[0]))
    });
    numbers.collect()
}

#[test]
fn a_row_for_each_obligation_passes() {
    let mut numbers = owed();
    numbers.push("D1".to_string());
    assert_eq!(told(&trace_rows::check(DOCUMENT, &rows(&numbers))), "");
}

#[test]
fn a_missing_row_and_one_too_many_are_found() {
    for (place, number) in owed().iter().enumerate() {
        let mut numbers = owed();
        numbers[place] = "B16".to_string();
        let said = told(&trace_rows::check(DOCUMENT, &rows(&numbers)));
        let surplus = format!("\ndocs/SAMPLE.md:{}: a row for B16, which is no obligation", place + 3);
        let missing = format!("\ndocs/SAMPLE.md:{}: no row for {number}", numbers.len() + 2);
        assert_eq!(said, surplus + &missing);
    }
}

const GOOD: &str = "\
Edits stand in `must-fail/` of a crate, `./more` tries the others. Contracts are an `ensures`; `more than a word` is no name.

| No. | Stated | Kept | Guard |
|---|---|---|---|
| B1 | `fresh`, `step` (one call, `own`) and `after` in specs/History.antt; `struct Bench` in src/lib.rt | `bench`, `lib::open` | \
never_decides, byte_past+ (message); `a_test_name` |
| D2 | `open` in crates/calls; `fresh`, in crates/bench/specs | model/tests/rolls.rs | |
| D3 | *Layers: bench and run.* `open` in src/lib.rt and `Demand3` in specs/Demand.antt | the laws of proofs/Refinement.antt | opens_nothing |

Of `read`: byte_past+, never_decides
(bench).
";

fn tree() -> Tree {
    let history = "fresh : ℕ\nstep : ℕ\nafter : ℕ\n";
    Tree::of(&[
        ("crates/bench/specs/History.antt", history),
        ("crates/bench/src/lib.rt", "pub struct Bench { own: u8 }\n"),
        ("crates/bench/must-fail/never_decides.edit", ""),
        ("crates/bench/proofs/Refinement.antt", "tie : ℕ\n"),
        ("crates/calls/src/lib.rt", "pub fn open() {}\npub fn begin() {}\n"),
        ("crates/lent/src/lib.rt", "pub fn begin() {}\n"),
        ("crates/demand/specs/Demand.antt", "Demand3 : ℕ\n"),
        ("crates/demand/must-fail/opens_nothing.edit", ""),
        ("crates/message/more-edits/byte_past.edit", ""),
        ("crates/message/proofs/Refinement.antt", "tie : ℕ\n"),
        ("crates/message/src/lib.rt", "pub fn read() {}\n"),
        ("model/tests/rolls.rs", "fn a_test_name() {}\n"),
        ("more", ""),
    ])
}

fn names_said(old: &str, new: &str) -> String {
    assert!(GOOD.contains(old), "{old}");
    told(&trace_names::check(DOCUMENT, &GOOD.replacen(old, new, 1), &tree()))
}

fn edits_said(old: &str, new: &str) -> String {
    assert!(GOOD.contains(old), "{old}");
    told(&trace_edits::check(DOCUMENT, &GOOD.replace(old, new), &tree()))
}

#[test]
fn the_good_text_passes() {
    assert_eq!(told(&trace_names::check(DOCUMENT, GOOD, &tree())), "");
    assert_eq!(told(&trace_edits::check(DOCUMENT, GOOD, &tree())), "");
}

#[test]
fn a_name_declared_nowhere_is_found() {
    assert_eq!(
        names_said("`bench`,", "`stool`,"),
        "\ndocs/SAMPLE.md:5: `stool` is declared nowhere"
    );
    assert!(names_said("`lib::open`", "`stool::open`").contains(":5: `stool::open` is declared nowhere"));
    assert!(names_said("`lib::open`", "`struct Stool`").contains(":5: `Stool` is declared nowhere"));
    assert!(names_said("`a_test_name`", "`another_test_name`").contains(":5: `another_test_name` is declared nowhere"));
    assert!(names_said("Of `read`", "Of `reads`").contains(":9: `reads` is declared nowhere"));
}

#[test]
fn a_path_that_leads_nowhere_is_found() {
    assert_eq!(
        names_said("in specs/History.antt", "in specs/Story.antt"),
        "\ndocs/SAMPLE.md:5: there is no specs/Story.antt in bench, calls, lent"
    );
    assert!(names_said("crates/bench/specs |", "crates/stool/specs |").contains(":6: there is no crates/stool/specs"));
    assert!(names_said("model/tests/rolls.rs", "model/tests/roll.rs").contains(":6: there is no model/tests/roll.rs"));
    assert!(names_said("`./more`", "`./less`").contains(":1: there is no ./less"));
    assert!(names_said("`must-fail/`", "`must-fail/x`").contains(":1: there is no must-fail/x"));
}

#[test]
fn a_name_in_the_wrong_file_is_found() {
    let first = names_said("`fresh`, `step`", "`open`, `step`");
    assert_eq!(first, "\ndocs/SAMPLE.md:5: specs/History.antt does not declare open");
    assert!(names_said("`after` in", "`read` in").contains(":5: specs/History.antt does not declare read"));
    assert!(names_said("`struct Bench` in", "`fresh` in").contains(":5: src/lib.rt does not declare fresh"));
    assert!(names_said("`open` in crates/calls", "`read` in crates/calls").contains(":6: crates/calls does not declare"));
    assert!(names_said("`fresh`, in crates", "`open`, in crates").contains(":6: crates/bench/specs does not declare"));
    // one crate's file declares them all
    assert!(names_said("`struct Bench` in", "`open`, `Bench` in").contains(":5: src/lib.rt does not declare"));
}

#[test]
fn a_path_is_below_a_crate_of_the_rows_layer() {
    assert_eq!(
        names_said("| B1 |", "| M1 |"),
        "\ndocs/SAMPLE.md:5: there is no specs/History.antt in message\
         \ndocs/SAMPLE.md:5: src/lib.rt does not declare Bench"
    );
    assert_eq!(
        names_said("*Layers: bench and run.*", "*Layer: the run: all of it.*"),
        "\ndocs/SAMPLE.md:7: there is no src/lib.rt in demand\
         \ndocs/SAMPLE.md:7: there is no proofs/Refinement.antt in demand"
    );
    assert!(names_said("| D3 | *Layers: bench and run.*", "| D3 |").contains(":7: src/lib.rt does not declare open"));
    assert!(names_said("bench and run.*", "stool.*").contains(":7: there is no layer called stool"));
    assert_eq!(names_said("in specs/History.antt", "in crates/bench/specs/History.antt"), "");
    assert_eq!(names_said("| B1 |", "| S1.11 |"), "");
}

#[test]
fn a_path_that_may_be_of_two_crates_is_found() {
    assert_eq!(
        names_said("`struct Bench` in src/lib.rt", "`begin` in src/lib.rt"),
        "\ndocs/SAMPLE.md:5: src/lib.rt may be crates/calls/src/lib.rt or crates/lent/src/lib.rt: say which"
    );
    assert_eq!(
        names_said("`struct Bench` in src/lib.rt", "`begin` in crates/lent/src/lib.rt"),
        ""
    );
    assert!(names_said("; `struct Bench` in src/lib.rt", "; all of src/lib.rt").contains("src/lib.rt may be crates/bench/"));
    assert_eq!(names_said("; `struct Bench` in src/lib.rt", "; all of src/"), "");
    // outside of the table every crate may be meant
    assert!(names_said("Of `read`:", "Of proofs/Refinement.antt:").contains(":9: proofs/Refinement.antt may be crates/bench/"));
}

#[test]
fn an_edit_that_is_not_there_is_found() {
    let said = edits_said("never_decides", "always_decides");
    let expected = "\ndocs/SAMPLE.md:5: there is no crates/*/must-fail/always_decides.edit\
                    \ndocs/SAMPLE.md:9: there is no crates/bench/must-fail/always_decides.edit\
                    \ndocs/SAMPLE.md:10: crates/bench/must-fail/never_decides.edit is named nowhere";
    assert_eq!(said, expected);
}

#[test]
fn an_edit_is_where_its_marks_say() {
    assert!(edits_said("byte_past+", "byte_past").contains(":5: there is no crates/message/must-fail/byte_past.edit"));
    assert!(
        edits_said("never_decides", "never_decides+").contains(":9: there is no crates/bench/more-edits/never_decides.edit")
    );
    assert!(edits_said("(message)", "(bench)").contains(":5: there is no crates/bench/more-edits/byte_past.edit"));
}

#[test]
fn an_edit_that_is_not_named_is_found() {
    let said = edits_said("byte_past+", "");
    assert_eq!(
        said,
        "\ndocs/SAMPLE.md:10: crates/message/more-edits/byte_past.edit is named nowhere"
    );
}

#[test]
fn an_edit_without_a_crate_is_of_the_rows_layer_or_of_a_crate_named_beside_it() {
    let said = edits_said("| D3 | *Layers: bench and run.*", "| B2 |");
    let missing = "\ndocs/SAMPLE.md:7: there is no crates/{bench,calls,lent}/must-fail/opens_nothing.edit";
    let unnamed = "\ndocs/SAMPLE.md:10: crates/demand/must-fail/opens_nothing.edit is named nowhere";
    assert_eq!(said, format!("{missing}{unnamed}"));
    assert_eq!(edits_said("| opens_nothing |", "| opens_nothing, byte_past+ (message) |"), "");
    assert_eq!(
        edits_said("| opens_nothing |", "| byte_past+, opens_nothing, byte_past+ (message) |"),
        ""
    );
}

#[test]
fn an_edit_that_stands_in_two_crates_says_of_which() {
    let files = [
        ("crates/calls/must-fail/never_decides.edit", ""),
        ("crates/bench/must-fail/never_decides.edit", ""),
    ];
    let row = |guard: &str| format!("| No. | Guard |\n|---|---|\n| B1 | {guard} |\n");
    let said = |guard: &str| told(&trace_edits::check(DOCUMENT, &row(guard), &Tree::of(&files)));
    let expected = "\ndocs/SAMPLE.md:3: never_decides stands in must-fail of bench and calls: say which";
    assert_eq!(said("never_decides"), expected);
    assert_eq!(said("never_decides (bench), never_decides (calls)"), "");
}
