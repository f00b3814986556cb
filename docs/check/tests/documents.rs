//! The documents as they are.
use check::finding::{told, Finding};
use check::tree::Tree;
use check::{believed, chart, paths, reading_names, sentences, trace_edits, trace_names, trace_rows};

const READING: &str = "docs/READING.md";
const TRACE: &str = "docs/TRACE.md";
const README: &str = "README.md";

/// Fails with a line for each finding that the check has in the document.
fn hold(document: &str, check: impl Fn(&str, &Tree) -> Vec<Finding>) {
    let tree = Tree::of_repository().expect("the repository can be read");
    let text = tree.text(document).unwrap_or_else(|| panic!("there is no {document}"));
    let findings = check(text, &tree);
    assert!(findings.is_empty(), "{}", told(&findings));
}

#[test]
fn reading_names_are_declared_where_they_lead() {
    hold(READING, |text, tree| reading_names::check(READING, text, tree));
}

#[test]
fn reading_states_no_rule_without_a_name() {
    hold(READING, |text, _| sentences::check(READING, text));
}

#[test]
fn reading_shows_the_chart() {
    hold(READING, |text, tree| chart::check_whole(READING, text, tree));
}

#[test]
fn readme_shows_the_start_of_the_chart() {
    hold(README, |text, tree| chart::check_start(README, text, tree));
}

#[test]
fn trace_has_a_row_for_each_obligation() {
    hold(TRACE, |text, _| trace_rows::check(TRACE, text));
}

#[test]
fn trace_names_are_declared() {
    hold(TRACE, |text, tree| trace_names::check(TRACE, text, tree));
}

#[test]
fn trace_names_the_edits() {
    hold(TRACE, |text, tree| trace_edits::check(TRACE, text, tree));
}

#[test]
fn links_and_paths_lead_somewhere() {
    for document in [
        README,
        "docs/DECISIONS.md",
        "docs/BENCHMARK.md",
        "docs/CHANGES.md",
        "docs/DESIGN-PASS.md",
        "docs/LOOK-BACK.md",
        "docs/PORT.md",
        "docs/SKETCHES.md",
        READING,
        TRACE,
    ] {
        hold(document, |text, tree| paths::check(document, text, tree));
    }
}

/// With --nocapture: how many lines of each file count.
#[test]
fn reading_says_how_many_lines_must_be_believed() {
    hold(READING, |text, tree| {
        println!("{}", believed::table(tree));
        believed::check(READING, text, tree)
    });
}
