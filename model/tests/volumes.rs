//! Volumes of many benches by fixed seeds: demand 3 under its premises, each mistake that document 01 lists, and each premise
//! dropped by itself. `cargo test --lib volumes:: -- --nocapture` shows what each run came to.
use model::history::bench::Rules;
use model::history::roll;
use model::volume::compare::first_difference;
use model::volume::facts::Facts;
use model::volume::play::play;
use model::volume::premises::Premise;
use model::volume::scenario::Scenario;
use model::volume::{run_seed, scenarios, Outcome};

const PAPER_SEEDS: u64 = 3_000;
/// Fewer: every call runs in the proved code too.
const PROVED_SEEDS: u64 = 300;
const MISTAKE_SEEDS: u64 = 1_500;
const PREMISE_SEEDS: u64 = 1_000;

#[test]
fn under_the_premises_no_two_decided_logs_conflict() {
    let mut facts = Facts::default();
    for seed in 0..PAPER_SEEDS {
        let outcome = Outcome::with_text(seed, &play(seed, Rules::Paper, None), roll::text);
        assert_eq!(outcome.fault(), None);
        facts += outcome.facts;
    }
    println!("{facts}");
    // A run in which none of this occurs would show nothing.
    let third = PAPER_SEEDS as usize / 3;
    assert!(facts.equivocator > third && facts.sleeper > third && facts.split_votes > third && facts.half_known > third);
    assert!(facts.all_at_once > third && facts.long_decisions > PAPER_SEEDS as usize && facts.refused > 0);
}

#[test]
fn the_proved_text_is_what_the_volumes_saw() {
    let mut facts = Facts::default();
    for seed in 0..PROVED_SEEDS {
        let outcome = run_seed(seed);
        assert_eq!(outcome.fault(), None);
        facts += outcome.facts;
    }
    println!(
        "proved text: {} calls in {} volumes, all lines alike",
        facts.calls, facts.volumes
    );
    assert!(facts.long_decisions > 0 && facts.all_at_once > 0);
}

#[test]
fn each_mistake_is_seen_as_a_conflict_under_the_premises() {
    for (mistake, scenario) in Rules::MISTAKES.into_iter().zip(scenarios::mistakes()) {
        assert_eq!(scenario.rules, mistake);
        let (mut conflicts, mut parted, mut other_answers) = (0, 0, 0);
        for seed in 0..MISTAKE_SEEDS {
            let volume = play(seed, mistake, None);
            let outcome = Outcome::of(seed, &volume);
            assert_eq!(outcome.breaches, [], "premises of seed {seed} under {mistake:?}");
            conflicts += usize::from(outcome.has_conflict());
            parted += usize::from(outcome.has_parted());
            other_answers += usize::from(volume.keepers.iter().any(|keeper| first_difference(keeper).is_some()));
        }
        println!(
            "{:20} of {MISTAKE_SEEDS} volumes: conflict {conflicts}, parted mark {parted}, other answers {other_answers}; by hand: {}",
            format!("{mistake:?}"),
            hand_made_conflict(&scenario)
        );
        assert!(conflicts > 0 && other_answers >= conflicts, "{mistake:?}");
    }
}

/// The conflict of a scenario under its mistake; under the paper's rules it has decisions, and none conflict.
fn hand_made_conflict(scenario: &Scenario) -> String {
    let wrong = Outcome::of(0, &scenario.play(scenario.rules));
    assert!(wrong.breaches.is_empty() && wrong.has_conflict(), "{:?}", scenario.rules);
    let right = Outcome::with_text(0, &scenario.play(Rules::Paper), roll::text);
    assert_eq!(right.fault(), None);
    assert!(right.facts.decisions > 0);
    wrong.broken[0].to_string()
}

#[test]
fn each_premise_is_needed() {
    let premises = [Premise::Delivery, Premise::Numbers, Premise::Majority];
    for (premise, scenario) in premises.into_iter().zip(scenarios::dropped_premises()) {
        assert_eq!(scenario.dropped, Some(premise));
        let (mut broken, mut conflicts) = (0, 0);
        for seed in 0..PREMISE_SEEDS {
            let outcome = Outcome::with_text(seed, &play(seed, Rules::Paper, Some(premise)), roll::text);
            assert_eq!(outcome.differing_lines, [""; 0], "answers need no premise");
            // Where chance left the premise whole after all, the promise is kept.
            assert!(
                outcome.breaks_only(premise) || outcome.fault().is_none(),
                "seed {seed} without {premise:?}"
            );
            broken += usize::from(outcome.breaks_only(premise));
            conflicts += usize::from(outcome.has_conflict());
        }
        println!(
            "without {:9} broken in {broken} of {PREMISE_SEEDS} volumes, conflict in {conflicts}",
            format!("{premise:?}:")
        );
        println!("  by hand: {}", hand_made_breach(&scenario, premise));
        assert!(conflicts > 0, "{premise:?}");
    }
}

/// The breach and the conflict of a scenario; with its premise mended, neither.
fn hand_made_breach(scenario: &Scenario, premise: Premise) -> String {
    let outcome = Outcome::with_text(0, &scenario.play(Rules::Paper), roll::text);
    assert!(outcome.breaks_only(premise) && outcome.has_conflict(), "{premise:?}");
    let mended = Outcome::with_text(0, &scenario.mended().play(Rules::Paper), roll::text);
    assert_eq!(mended.fault(), None);
    assert!(mended.facts.decisions > 0);
    format!("{}; {}", outcome.breaches[0], outcome.broken[0])
}
