//! What counts as a declaration, and what is a mere mention.
use check::{antt, code};
use std::collections::BTreeSet;

fn names(declared: BTreeSet<String>) -> String {
    Vec::from_iter(declared).join(" ")
}

#[test]
fn definitions_theorems_records_and_data_types_declare() {
    let text = "\
-- commented : ℕ
use Rattle.std.specs.Prelude.{ℕ, ◌+◌, leb as at_most}
pub use Rattle.message.specs.Limits.{last_view}
pub mod Limits
abbrev pub fresh : History
fresh = record { last = none; gathering = false }
unfoldable pub read_of : ℕ
    → List ℕ → Reading
pub longest-iff : (n : ℕ) → Is n
unfolding read_of
longest-iff n = by_cases n
helper : ℕ -- trailing : ℕ
fresh' : ℕ
fresh' = helper
pub ◌⊕◌ : ℕ → ℕ → ℕ
pub ruleset steps = (helper, fresh)
pub record Fit (names counts : List ℕ)
    (base : ℕ) : Type 0 where
  -- why
  pub few : base < 4
  left right : ℕ
pub data Word : Type 0 where
  first second : Word
  only : ℕ → Word
";
    let expected = "Fit Word few first fresh fresh' helper left longest-iff only read_of right second steps ◌⊕◌";
    assert_eq!(names(antt::declared(text)), expected);
}

#[test]
fn a_module_declares_what_is_in_it_and_a_local_where_nothing() {
    let text = "\
module _ (n own : ℕ)
    (cs : List Call) where
  pub data Sends (b : ℕ) : Type 0 where
    sends_made : Made b → Sends b

  validity : (R : Reading)
      → Grade R
  validity R = elim (dec_le R) [
    | yes l ↦ common l
  ]
    where
      common : Meet R
      common = let a : ℕ = 1 in a

      record Inner : Type 0 where
        field : ℕ

  after-it : ℕ
outside : ℕ
";
    let expected = "Sends after-it outside sends_made validity";
    assert_eq!(names(antt::declared(text)), expected);
}

#[test]
fn code_declares_functions_types_members_and_constants() {
    let text = "\
// fn commented() {}
#![tactic(auto)]

mod limits;
ghost use Rattle.bench.specs.Answers.{OpenGives, ◌≡◌};
use limits::is_beyond;
const MOST: usize = 32;
pub struct Bench {
    // how many: fn none
    pub n: u8,
    pub(crate) places: [u8; 4],
    ghost few: { length places' ≤ 4 },
}
pub trait Way {
    ghost law: { fn hidden };
    fn step(self, other: Self) -> Self
        ensures first { result ≡ law self other }
        ensures second { struct hidden };
}
impl Model for Bench {
    ghost view = { λ b. b.n };
}
pub enum Made {
    Nothing,
    Log(u8, Head),
}
pub fn open(n: u8, said: &'static str) -> Bench
    requires { n < 32 }
    ensures { const hidden : record { x = 1 } }
{
    let mut local = b\"fn quoted\";
    limits::is_beyond(local)
}
extern \"C\" {
    fn text(from: *const u8, mark: char) -> fn(u8);
}
";
    let expected = "Bench Log MOST Made Nothing Way few law limits n open places step text view";
    assert_eq!(names(code::declared(text)), expected);
}
