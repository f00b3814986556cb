//! Volumes of many benches: rule-keepers by their histories, rule-breakers led by an adversary, and demand 3 judged from the
//! recorded lists of calls.
//!
//! A *volume* is one such run: the lists of all rule-keepers as wholes, tied by beats and premises only.
pub mod adversary;
pub mod benches;
pub mod compare;
pub mod facts;
pub mod keeper;
pub mod messages;
pub mod play;
pub mod plots;
pub mod post;
pub mod premises;
pub mod promise;
pub mod reading;
pub mod rolls;
pub mod rubbish;
pub mod scenario;
pub mod scenarios;
pub mod schedule;

use crate::history::bench::Rules;
use crate::proved;
use benches::Volume;
use facts::Facts;
use premises::{Breach, Premise};
use promise::Broken;
use reading::Reading;

/// What one volume came to.
pub struct Outcome {
    pub seed: u64,
    pub facts: Facts,
    pub breaches: Vec<Breach>,
    pub broken: Vec<Broken>,
    /// Lines of the rolls' texts that are not what the volume saw.
    pub differing_lines: Vec<String>,
}

impl Outcome {
    /// Premises and promise of a volume.
    pub fn of(seed: u64, volume: &Volume) -> Outcome {
        let lists: Vec<Reading> = volume.keepers.iter().map(Reading::of).collect();
        Outcome {
            seed,
            facts: Facts::of(volume, &lists),
            breaches: premises::breaches(volume.n, &lists),
            broken: promise::broken(&volume.keepers),
            differing_lines: vec![],
        }
    }

    /// The same, with each rule-keeper's roll put through a roll function.
    pub fn with_text(seed: u64, volume: &Volume, text: fn(&[u8]) -> Vec<u8>) -> Outcome {
        let lines = volume.keepers.iter().filter_map(|keeper| rolls::differing_line(keeper, text));
        Outcome {
            differing_lines: lines.collect(),
            ..Outcome::of(seed, volume)
        }
    }

    /// Whether two decided logs conflict.
    pub fn has_conflict(&self) -> bool {
        self.broken.iter().any(|broken| matches!(broken, Broken::Conflict { .. }))
    }

    /// Whether some bench set its mark.
    pub fn has_parted(&self) -> bool {
        self.broken.iter().any(|broken| matches!(broken, Broken::Parted { .. }))
    }

    /// Whether this premise fails, and no other.
    pub fn breaks_only(&self, premise: Premise) -> bool {
        !self.breaches.is_empty() && self.breaches.iter().all(|breach| breach.premise() == premise)
    }

    /// What is wrong with a volume played by the paper's rules and the premises; nothing, if all is well.
    pub fn fault(&self) -> Option<String> {
        let breach = self
            .breaches
            .first()
            .map(|breach| format!("a premise that should hold: {breach}"));
        let broken = self.broken.first().map(|broken| format!("the promise: {broken}"));
        let line = self.differing_lines.first().map(|line| format!("the text of a roll: {line}"));
        breach
            .or(broken)
            .or(line)
            .map(|fault| format!("volume of seed {}: {fault}", self.seed))
    }
}

/// The volume of a seed by the paper's rules and the premises, the proved roll function taking part.
pub fn run_seed(seed: u64) -> Outcome {
    Outcome::with_text(seed, &play::play(seed, Rules::Paper, None), proved::roll_text)
}
