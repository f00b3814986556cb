//! Samples of what a reader must believe, and of the numbers that say how much it is.
use check::believed::{check, table};
use check::finding::told;
use check::public::{lines_said, public_lines};
use check::tree::Tree;

const DOCUMENT: &str = "docs/SAMPLE.md";

const GOOD: &str = "\
# Sample

There are 1,000 lines of this.

## What a reader must believe

Of 14 lines in all the code has
7 lines of promises and types. No file [Lib](../crates/a/specs/Lib.antt) counts.

- [Words](../crates/a/specs/Words.antt), [More](../crates/a/specs/More.antt): 7 lines
- For demand 3 by history [Words](../crates/a/specs/Words.antt) is enough, 4
  lines.

The file that no
reader needs is [Steps](../crates/a/specs/Steps.antt), of 1 lines.

[`word`]: ../crates/a/specs/Words.antt
";

const CODE: &str = "\
// Types.
pub struct One {
    // a field
    pub field: u8,

    pub other: u8,
}

struct Hidden {
    field: u8,
}

pub fn promise(x: u8) -> u8
    ensures { result ≡ x }
{
    x
}

pub fn nothing() {
    promise(0);
}

pub(crate) fn within(x: u8) -> u8
    ensures { result ≡ x }
{
    x
}
";

fn tree() -> Tree {
    Tree::of(&[
        ("crates/a/specs/Lib.antt", "-- The list.\npub mod Words\n\npub mod More\n"),
        (
            "crates/a/specs/Words.antt",
            "-- Words.\nuse Rattle.a.specs.More.{more}\n\nword : ℕ\n  -- said\nword = 0 -- so\n  + 1\n",
        ),
        ("crates/a/specs/More.antt", "more : ℕ\nmore = 1\nagain : ℕ\n"),
        ("crates/a/specs/Steps.antt", "step : ℕ\n"),
        ("crates/a/src/lib.rt", CODE),
        ("crates/a/src/other.rt", "pub enum Mark;\n"),
        ("crates/a/proofs/Laws.antt", "law : ℕ\n"),
    ])
}

fn said(old: &str, new: &str) -> String {
    assert!(GOOD.contains(old), "{old}");
    told(&check(DOCUMENT, &GOOD.replacen(old, new, 1), &tree()))
}

#[test]
fn the_good_text_passes() {
    assert_eq!(told(&check(DOCUMENT, GOOD, &tree())), "");
}

#[test]
fn a_wrong_number_is_found_and_the_right_one_said() {
    assert_eq!(
        said("14 lines", "1,400 lines"),
        "\ndocs/SAMPLE.md:7: 1400 is said, and there are 14 lines in all"
    );
    assert_eq!(
        said("7 lines of", "8 lines of"),
        "\ndocs/SAMPLE.md:8: 8 is said, and there are 7 lines of promises and types"
    );
    assert_eq!(
        said(": 7 lines", ": 6 lines"),
        "\ndocs/SAMPLE.md:10: 6 is said, and there are 7 lines in the files linked here"
    );
    assert!(said("enough, 4", "enough, 5").contains(":11: 5 is said, and there are 4 lines in the files linked here"));
    assert!(said("of 1 lines", "of 2 lines").contains(":15: 2 is said, and there are 1 lines in the files linked here"));
}

#[test]
fn a_number_that_must_be_there_is_missed() {
    assert_eq!(
        said("14 lines in all", "all this"),
        "\ndocs/SAMPLE.md:5: nothing says how many lines in all: 14"
    );
    let unsaid = "\ndocs/SAMPLE.md:5: no paragraph on demand 3 links to its files and says how many lines they have";
    assert_eq!(said("demand 3", "the third demand"), unsaid);
    assert_eq!(said("enough, 4\n  lines", "enough"), unsaid);
    assert!(said("[Words](../crates/a/specs/Words.antt) is enough", "Words is enough").contains(unsaid));
    assert!(said("## What", "## How").contains(":1: there is no section"));
}

#[test]
fn every_file_is_on_the_list_or_said_not_to_be_needed() {
    assert!(said("[More](../crates/a/specs/More.antt): 7", "More: 4")
        .contains(":5: crates/a/specs/More.antt is not on the list, nor among those that no reader needs"));
    assert!(said("7 lines\n", "7 lines\n- [Steps](../crates/a/specs/Steps.antt)\n")
        .contains(":5: crates/a/specs/Steps.antt is on the list, and among those that no reader needs"));
    // what is needed counts
    let all = said("that no\nreader needs", "of the steps");
    assert_eq!(all, "\ndocs/SAMPLE.md:7: 14 is said, and there are 15 lines in all");
}

#[test]
fn blanks_and_comments_say_nothing() {
    assert_eq!(lines_said("-- one\n\n  -- two\nthree -- four\n   \n  five\n"), 2);
    assert_eq!(lines_said(""), 0);
}

#[test]
fn public_types_and_promises_count() {
    assert_eq!(public_lines(CODE), 6);
    let long = "#[unsafe(no_mangle)]\npub extern \"C\" fn f(\n    a: u8,\n) -> u8\n    requires { x }\n    ensures low {\n        y\n    }\n    \
                ensures high { z }\n{\n    0\n}\n";
    assert_eq!(public_lines(long), 8);
    let within = "impl A {\n    // a promise\n    pub fn f(self) -> u8\n        ensures { y }\n    {\n        0\n    }\n}\n";
    assert_eq!(public_lines(within), 2);
    let follows = "pub fn nothing() {\n}\n\npub(crate) fn f()\n    ensures { y }\n{\n}\n";
    assert_eq!(public_lines(follows), 0);
    let seen = "#[derive(Drop)]\npub trait Way {\n    ghost law: { Self };\n}\n\nimpl Model for A {\n    // as a list\n    ghost view = { λ s. s };\n}\n";
    assert_eq!(public_lines(seen), 6);
    assert_eq!(public_lines("impl A {\n    fn f() {}\n}\n"), 0);
    assert_eq!(public_lines("pub const fn f() -> u8\n    ensures { y }\n{\n}\n"), 2);
    assert_eq!(public_lines("pub enum Way {\n    By,\n    On(u8),\n}\npub struct Mark;\n"), 5);
}

#[test]
fn the_table_has_a_line_for_each_file() {
    let expected = "    3 crates/a/specs/More.antt\n    1 crates/a/specs/Steps.antt\n    4 crates/a/specs/Words.antt\n    \
                    6 crates/a/src/lib.rt\n    1 crates/a/src/other.rt\n    7 of promises and types\n";
    assert_eq!(table(&tree()), expected);
}
