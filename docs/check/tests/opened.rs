//! Which definitions of another crate a law opens by their text: on samples, and in the crates as they are.
use check::finding::told;
use check::opened::check;
use check::tree::Tree;

const GOOD: &str = "\
-- unfolding read_of
use Rattle.std.specs.Prelude.{◌≡◌, ℕ, length}
use Rattle.message.specs.Message.{Meaning, read_of}
use Rattle.message.specs.Logs.{
  Log as Blocks,
  is_prefix as starts,
}
use Rattle.message.specs.Choice as choice
use Rattle.bench.specs.History.{History, after}
use Rattle.bench.proofs.Sample.{opens_all}

pub first : (p : History) → length p ≡ 0
unfolding length after
first p = refl

module _ (n : ℕ) where
  pub second : read_of n ≡ choice.pick
  unfolding
      after
      length
  second = starts read_of

pub third : unfold after in (after 0 ≡ 0)
third = refl
";

const CODE: &str = "\
#![tactic(auto)]

#[tactic(auto, using(message::proofs::Laws::law), unfolding(crate::specs::History::after, std::specs::Prelude::take))]
fn open(n: u8) -> u8 {
    n
}
";

/// What is said of a text in the place of this file, with a file of the crate message beside it.
fn said_of_text(path: &str, text: &str) -> String {
    told(&check(&Tree::of(&[(path, text), ("crates/message/src/lib.rt", "")])))
}

fn said_of(path: &str, old: &str, new: &str) -> String {
    assert!(GOOD.contains(old), "{old}");
    said_of_text(path, &GOOD.replacen(old, new, 1))
}

fn said(old: &str, new: &str) -> String {
    said_of("crates/bench/proofs/Laws.antt", old, new)
}

fn said_of_code(path: &str, old: &str, new: &str) -> String {
    assert!(CODE.contains(old), "{old}");
    said_of_text(path, &CODE.replacen(old, new, 1))
}

#[test]
fn laws_that_open_their_own_definitions_pass() {
    assert_eq!(said("", ""), "");
}

#[test]
fn a_definition_of_another_crate_is_found() {
    assert_eq!(
        said("length after", "length read_of"),
        "\ncrates/bench/proofs/Laws.antt:13: opens `read_of` of crate message by its text: cite a law of it"
    );
}

#[test]
fn another_name_for_it_does_not_hide_it() {
    assert!(said("length after", "starts").contains(":13: opens `is_prefix` of crate message"));
    assert!(said("length after", "choice.any_of").contains(":13: opens `any_of` of crate message"));
    assert!(said("length after", "Rattle.message.specs.Store.log_at").contains(":13: opens `log_at` of crate message"));
}

#[test]
fn the_lines_below_are_read_up_to_the_law() {
    assert!(said("      length\n", "      length read_of\n").contains(":20: opens `read_of`"));
    assert!(said("  unfolding\n", "  unfolding read_of\n").contains(":18: opens `read_of`"));
}

#[test]
fn what_is_opened_for_one_expression_is_found() {
    assert_eq!(
        said("unfold after in", "unfold after read_of in"),
        "\ncrates/bench/proofs/Laws.antt:23: opens `read_of` of crate message by its text: cite a law of it"
    );
    assert_eq!(said("(after 0 ≡ 0)", "(read_of 0 ≡ 0)"), "");
}

#[test]
fn a_function_that_opens_its_own_crates_definitions_passes() {
    assert_eq!(said_of_code("crates/bench/src/acts.rt", "", ""), "");
}

#[test]
fn a_function_that_opens_a_definition_of_another_crate_is_found() {
    let told = said_of_code(
        "crates/bench/src/acts.rt",
        "crate::specs::History::after",
        "message::specs::Store::log_at",
    );
    assert_eq!(
        told,
        "\ncrates/bench/src/acts.rt:3: opens `log_at` of crate message by its text: cite a law of it"
    );
    let table = said_of_code(
        "crates/bench/src/acts.rt",
        "specs::History::after",
        "proofs::Sample::opens_all",
    );
    assert!(
        table.contains(":3: opens `opens_all` of the table crates/bench/proofs/Sample.antt"),
        "{table}"
    );
    assert_eq!(
        said_of_code("docs/acts.rt", "crate::specs::History", "message::specs::Store"),
        ""
    );
}

#[test]
fn what_a_table_opens_is_opened_by_no_law() {
    assert_eq!(said_of("crates/bench/proofs/Order.antt", "length after", "read_of"), "");
    assert!(said("length after", "opens_all").contains("opens `opens_all` of the table crates/bench/proofs/Sample.antt"));
}

#[test]
fn definitions_and_proofs_of_functions_are_read_and_nothing_else() {
    for path in [
        "crates/calls/specs/Steps.antt",
        "crates/calls/proofs/begin/Proof.antt",
        "crates/calls/proofs/begin/Invariants.antt",
        "crates/calls/proofs/acts/act/Answers.antt",
    ] {
        assert!(said_of(path, "length after", "read_of").contains("opens `read_of`"), "{path}");
    }
    assert_eq!(said_of("docs/Laws.antt", "length after", "read_of"), "");
    assert_eq!(said_of("crates/bench/Laws.antt", "length after", "read_of"), "");
}

#[test]
fn the_crates_open_no_definition_of_another() {
    let tree = Tree::of_repository().expect("the repository can be read");
    let findings = check(&tree);
    assert!(findings.is_empty(), "{}", told(&findings));
}
