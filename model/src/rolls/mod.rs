//! Random rolls by seed, and the model's text held against the proved one for each.
pub mod compare;
pub mod crowd;
pub mod damaged;
pub mod draft;
pub mod entries;
pub mod loose;
pub mod random;
pub mod shaped;
pub mod tally;

use random::Random;

/// A way to make a roll from a seed.
#[derive(Clone, Copy, PartialEq, Eq, Debug)]
pub enum Generator {
    /// Calls in no order, with every refusal a roll can show.
    Loose,
    /// Bytes that are no roll, each cause apart, and flipped bytes.
    Damaged,
    /// One bench that hears others vote and propose over several views.
    Shaped,
    /// One bench that hears next to nobody over many views, so that its log grows to the last block.
    Alone,
}

impl Generator {
    pub const ALL: [Generator; 4] = [Generator::Loose, Generator::Damaged, Generator::Shaped, Generator::Alone];

    /// The generator whose turn this seed is; the longest rolls come seldom.
    pub fn of(seed: u64) -> Generator {
        match seed % 16 {
            0..=3 => Generator::Loose,
            4..=6 => Generator::Damaged,
            7..=14 => Generator::Shaped,
            _ => Generator::Alone,
        }
    }

    /// The roll of this seed.
    pub fn roll(self, seed: u64) -> Vec<u8> {
        let random = &mut Random::new(seed, self as u64);
        match self {
            Generator::Loose => loose::roll(random),
            Generator::Damaged => damaged::roll(random),
            Generator::Shaped => shaped::roll(random, shaped::Manner::in_company),
            Generator::Alone => shaped::roll(random, shaped::Manner::alone),
        }
    }
}
