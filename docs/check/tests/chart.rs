//! Samples of documents that show the chart.
use check::chart::{check_start, check_whole, CHART};
use check::finding::told;
use check::tree::Tree;

const DOCUMENT: &str = "SAMPLE.md";

/// So many lines of a chart.
fn chart(lines: usize) -> String {
    (1..=lines).map(|line| format!("  line {line} |\n")).collect()
}

fn tree() -> Tree {
    Tree::of(&[(CHART, &chart(20))])
}

fn fenced(text: &str) -> String {
    format!("# Sample\n\n```\nanother\n```\n\n```text\n{text}```\n")
}

fn whole(text: &str) -> String {
    told(&check_whole(DOCUMENT, text, &tree()))
}

fn start(text: &str) -> String {
    told(&check_start(DOCUMENT, text, &tree()))
}

#[test]
fn the_chart_passes() {
    assert_eq!(whole(&fenced(&chart(20))), "");
    assert_eq!(start(&fenced(&chart(12))), "");
    assert_eq!(start(&fenced(&chart(20))), "");
}

#[test]
fn a_part_is_not_the_whole() {
    let expected = "\nSAMPLE.md:27: no fence is the text of crates/chart/stdout";
    assert_eq!(whole(&fenced(&chart(19))), expected);
    assert!(!whole(&fenced(&chart(21))).is_empty());
    assert!(!whole(&chart(20)).is_empty());
}

#[test]
fn a_changed_line_is_found_where_it_is() {
    let altered = chart(20).replace("line 5 ", "line 5");
    assert_eq!(
        whole(&fenced(&altered)),
        "\nSAMPLE.md:12: no fence is the text of crates/chart/stdout"
    );
    assert!(start(&fenced(&altered)).starts_with("\nSAMPLE.md:12: "));
}

#[test]
fn a_start_is_long_enough_and_starts_at_the_start() {
    assert!(!start(&fenced(&chart(11))).is_empty());
    assert!(!start(&fenced(&chart(20).replacen("  line 1 |\n", "", 1))).is_empty());
    assert!(!start(&fenced(&chart(21))).is_empty());
}

#[test]
fn without_a_chart_nothing_is_shown() {
    for tree in [Tree::default(), Tree::of(&[(CHART, "")])] {
        let text = fenced("");
        assert!(!check_whole(DOCUMENT, &text, &tree).is_empty());
        assert!(!check_start(DOCUMENT, &text, &tree).is_empty());
    }
}
