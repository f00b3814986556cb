//! Samples of documents with links and paths.
use check::finding::told;
use check::paths::check;
use check::tree::Tree;

const GOOD: &str = "\
See [the trace](TRACE.md#rows), [the code](../crates/bench) and [the paper](https://example.org/a).

The files `crates/bench/src/lib.rt` and (docs/TRACE.md). `[no](link)` is code.

## Who's heard, and when

As [above](#whos-heard-and-when).

    crates/bench    indented

```
crates/bench [no](link)
```
";

fn said(old: &str, new: &str) -> String {
    assert!(GOOD.contains(old), "{old}");
    let tree = Tree::of(&[("crates/bench/src/lib.rt", ""), ("docs/TRACE.md", "")]);
    told(&check("docs/SAMPLE.md", &GOOD.replacen(old, new, 1), &tree))
}

#[test]
fn the_good_text_passes() {
    assert_eq!(said("", ""), "");
}

#[test]
fn a_link_that_leads_nowhere_is_found() {
    assert_eq!(
        said("(TRACE.md#rows)", "(TRACES.md)"),
        "\ndocs/SAMPLE.md:1: the link to TRACES.md leads nowhere"
    );
    assert!(said("(../crates/bench)", "(crates/bench)").contains(":1: the link to crates/bench leads nowhere"));
    assert!(said("(../crates/bench)", "(../../crates/bench)").contains("leads nowhere"));
}

#[test]
fn a_link_to_no_heading_is_found() {
    assert_eq!(
        said("Who's heard", "Who is heard"),
        "\ndocs/SAMPLE.md:7: the link to #whos-heard-and-when leads nowhere"
    );
}

#[test]
fn a_path_that_leads_nowhere_is_found() {
    assert_eq!(
        said("lib.rt", "lip.rt"),
        "\ndocs/SAMPLE.md:3: there is no crates/bench/src/lip.rt"
    );
    assert!(said("(docs/TRACE.md)", "(docs/TRACES.md)").contains(":3: there is no docs/TRACES.md"));
    assert!(said("crates/bench    indented", "crates/stool").contains(":9: there is no crates/stool"));
    assert!(said("crates/bench [no]", "model/bench [no]").contains(":12: there is no model/bench"));
}
