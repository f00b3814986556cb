//! A small deterministic generator (splitmix64): one seed gives one roll on every machine.

pub struct Random {
    state: u64,
}

impl Random {
    /// A generator for this seed and this use of it.
    pub fn new(seed: u64, purpose: u64) -> Random {
        let mut random = Random { state: seed };
        random.state = random.bits() ^ purpose.wrapping_mul(0xD6E8_FEB8_6659_FD93);
        random
    }

    /// Sixty-four random bits.
    pub fn bits(&mut self) -> u64 {
        self.state = self.state.wrapping_add(0x9E37_79B9_7F4A_7C15);
        let mut mixed = self.state;
        mixed = (mixed ^ (mixed >> 30)).wrapping_mul(0xBF58_476D_1CE4_E5B9);
        mixed = (mixed ^ (mixed >> 27)).wrapping_mul(0x94D0_49BB_1331_11EB);
        mixed ^ (mixed >> 31)
    }

    /// A number below `end`, which is not zero.
    pub fn below(&mut self, end: usize) -> usize {
        (self.bits() % end as u64) as usize
    }

    /// A number from `low` to `high`, both among them.
    pub fn from_to(&mut self, low: usize, high: usize) -> usize {
        low + self.below(high - low + 1)
    }

    /// True so many times in a hundred.
    pub fn percent(&mut self, times: usize) -> bool {
        self.below(100) < times
    }

    /// One of these.
    pub fn pick<T: Copy>(&mut self, choices: &[T]) -> T {
        choices[self.below(choices.len())]
    }

    /// The same values in a random order.
    pub fn shuffle<T>(&mut self, values: &mut [T]) {
        for end in (1..values.len()).rev() {
            values.swap(end, self.below(end + 1));
        }
    }
}

#[cfg(test)]
mod tests {
    use super::*;

    #[test]
    fn one_seed_gives_one_sequence() {
        let sequence = |seed, purpose| {
            let mut random = Random::new(seed, purpose);
            [random.bits(), random.bits(), random.bits()]
        };
        assert_eq!(sequence(7, 1), sequence(7, 1));
        assert!(sequence(7, 1) != sequence(7, 2) && sequence(7, 1) != sequence(8, 1));
    }

    #[test]
    fn every_choice_comes_up() {
        let mut random = Random::new(1, 0);
        let mut seen = [0; 10];
        (0..1_000).for_each(|_| seen[random.from_to(3, 9)] += 1);
        assert!(seen[..3] == [0; 3] && seen[3..].iter().all(|&times| times > 50));
        let mut values: Vec<usize> = (0..50).collect();
        random.shuffle(&mut values);
        assert!(!values.is_sorted());
        values.sort();
        assert_eq!(values, (0..50).collect::<Vec<_>>());
    }
}
