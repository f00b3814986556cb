//! Samples of a document whose names are links, and of each slip in one.
use check::finding::told;
use check::reading_names::check;
use check::tree::Tree;

const DOCUMENT: &str = "docs/SAMPLE.md";

/// Each kind of code span, and a fence in which anything may stand.
const GOOD: &str = "\
# Sample

A bench starts [`fresh`], as `crates/bench` and `crates.txt` say; run `./test` or `rt ci`. See
[`Bench.own`] and [`bench::open`], [`lib::open`], [`Made::Log`].

```
`anything` goes
```

| Word | Name |
|---|---|
| done | [`longest-iff`] |

[`fresh`]: ../crates/bench/specs/History.antt
[`longest-iff`]: ../crates/bench/specs/History.antt
[`Bench.own`]: ../crates/bench/src/lib.rt
[`bench::open`]: ../crates/bench/src/lib.rt
[`lib::open`]: ../crates/bench/src/lib.rt
[`Made::Log`]: ../crates/bench/src/lib.rt
";

fn tree() -> Tree {
    let history = "-- stale : ℕ\nuse Rattle.bench.specs.Kept.{kept as held}\nabbrev pub fresh : History\nfresh = start stale\n\
                   pub longest-iff : ℕ\n";
    let code = "pub struct Bench { pub own: u8 }\npub enum Made { Log(u8) }\npub fn open() {}\n";
    Tree::of(&[
        ("crates/bench/specs/History.antt", history),
        ("crates/bench/src/lib.rt", code),
        ("crates.txt", "bench:\n"),
        ("test", ""),
    ])
}

/// What is said of the good text with one piece of it replaced.
fn said(old: &str, new: &str) -> String {
    assert!(GOOD.contains(old), "{old}");
    told(&check(DOCUMENT, &GOOD.replacen(old, new, 1), &tree()))
}

#[test]
fn the_good_text_passes() {
    assert_eq!(told(&check(DOCUMENT, GOOD, &tree())), "");
}

#[test]
fn a_renamed_definition_is_found() {
    let text = GOOD.replace("`fresh`", "`fresher`");
    let said = told(&check(DOCUMENT, &text, &tree()));
    let expected = "\ndocs/SAMPLE.md:14: [`fresher`]: crates/bench/specs/History.antt does not declare it";
    assert_eq!(said, expected);
}

#[test]
fn a_missing_definition_line_is_found() {
    let said = said("[`fresh`]: ../crates/bench/specs/History.antt\n", "");
    assert_eq!(
        said,
        "\ndocs/SAMPLE.md:3: [`fresh`] has no definition at the end of the document"
    );
}

#[test]
fn an_unused_definition_is_found() {
    let said = said("| done | [`longest-iff`] |\n", "| done | |\n");
    assert_eq!(said, "\ndocs/SAMPLE.md:15: [`longest-iff`] is defined and nowhere used");
}

#[test]
fn a_use_within_a_fence_is_none() {
    let text = GOOD
        .replace("| [`longest-iff`] |", "| |")
        .replace("`anything` goes", "[`longest-iff`]");
    let said = told(&check(DOCUMENT, &text, &tree()));
    assert_eq!(said, "\ndocs/SAMPLE.md:15: [`longest-iff`] is defined and nowhere used");
}

#[test]
fn a_wrong_file_is_found() {
    let in_another = said(
        "[`fresh`]: ../crates/bench/specs/History.antt",
        "[`fresh`]: ../crates/bench/src/lib.rt",
    );
    assert_eq!(
        in_another,
        "\ndocs/SAMPLE.md:14: [`fresh`]: crates/bench/src/lib.rt does not declare it"
    );
    let in_none = said(
        "[`fresh`]: ../crates/bench/specs/History.antt",
        "[`fresh`]: ../crates/bench/History.antt",
    );
    assert_eq!(
        in_none,
        "\ndocs/SAMPLE.md:14: [`fresh`]: there is no file ../crates/bench/History.antt"
    );
}

#[test]
fn a_bare_code_span_is_found() {
    let bare = said("[`longest-iff`] |", "[`longest-iff`] `fresh` |");
    assert_eq!(bare, "\ndocs/SAMPLE.md:12: `fresh` is no link, no path and no command");
    assert!(said("`crates.txt`", "`crate.txt`").contains(":3: `crate.txt` is no link"));
    assert!(said("`crates/bench`", "`crates/stool`").contains(":3: `crates/stool` is no link"));
    assert!(said("`rt ci`", "`rtci`").contains(":3: `rtci` is no link"));
    assert!(said("[`fresh`],", "[`fresh`](x),").contains(":3: `fresh` is no link"));
}

#[test]
fn a_mention_is_no_declaration() {
    for name in ["stale", "kept", "held", "start", "History"] {
        let said = told(&check(DOCUMENT, &GOOD.replace("`fresh`", &format!("`{name}`")), &tree()));
        assert!(said.contains("History.antt does not declare it"), "{name}: {said}");
    }
}

#[test]
fn each_part_of_a_name_is_looked_up() {
    for (right, wrong) in [
        ("Bench.own", "Bench.other"),
        ("bench::open", "stool::open"),
        ("Made::Log", "Made::open2"),
    ] {
        let said = told(&check(DOCUMENT, &GOOD.replace(right, wrong), &tree()));
        assert!(
            said.contains(&format!("[`{wrong}`]: crates/bench/src/lib.rt does not declare it")),
            "{said}"
        );
    }
    // the crate and the module stand for themselves before `::` only
    let said = told(&check(DOCUMENT, &GOOD.replace("bench::open", "bench.open"), &tree()));
    assert!(
        said.contains("[`bench.open`]: crates/bench/src/lib.rt does not declare it"),
        "{said}"
    );
}

#[test]
fn a_label_defined_twice_is_found() {
    let line = "[`fresh`]: ../crates/bench/specs/History.antt\n";
    let said = said(line, &line.repeat(2));
    assert_eq!(
        said,
        "\ndocs/SAMPLE.md:15: [`fresh`] is defined again; markdown takes [`fresh`] of line 14"
    );
}

#[test]
fn labels_that_differ_in_capitals_only_may_not_lead_apart() {
    let code = "pub struct Act { n: u8 }\n";
    let tree = Tree::of(&[("crates/a/src/lib.rt", code), ("crates/a/src/acts.rt", "fn act() {}\n")]);
    let text = "[`Act`] and [`act`]\n\n[`Act`]: ../crates/a/src/lib.rt\n[`act`]: ../crates/a/src/acts.rt\n";
    let said = told(&check(DOCUMENT, text, &tree));
    assert_eq!(
        said,
        "\ndocs/SAMPLE.md:4: [`act`] is defined again; markdown takes [`Act`] of line 3"
    );
}

#[test]
fn definitions_that_a_paragraph_runs_into_are_found() {
    let said = said("| done | [`longest-iff`] |\n\n", "| done | [`longest-iff`] |\n");
    assert_eq!(said, "\ndocs/SAMPLE.md:13: no blank line parts the definitions from the text");
}
