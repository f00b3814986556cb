//! The running totals of the decided log's entry counts, which stand in a lent list of their own, and the entry of a number.
use super::MOST_BLOCKS;

/// The least length of the lent list of totals.
pub const LEAST_TOTALS: usize = MOST_BLOCKS;

/// Where an entry stands: its block's place in the decided log, and its place inside that block.
#[derive(Clone, Copy, Debug, PartialEq, Eq)]
pub struct Found {
    pub block: u8,
    pub inside: u16,
}

/// Some total is not that of these counts, of which there are as many. Where each differs from the one before by its count,
/// all are right: so no total waits for the sum before it, and there is no branch for each.
pub fn are_unlike(totals: &[u32], counts: &[u16]) -> bool {
    let (Some(first), Some((count, more))) = (totals.first(), counts.split_first()) else {
        return false;
    };
    let steps = totals.iter().zip(&totals[1..]).zip(more);
    let differences = steps.fold(first ^ u32::from(*count), |all, ((before, total), &count)| {
        all | (total.wrapping_sub(*before) ^ u32::from(count))
    });
    differences != 0
}

/// Writes the totals from place `old` on, of these counts of the whole log; those before are right.
pub fn extend(totals: &mut [u32; LEAST_TOTALS], counts: &[u16], old: usize) {
    let mut total = old.checked_sub(1).map_or(0, |last| totals[last]);
    for (written, &count) in totals[old..].iter_mut().zip(&counts[old..]) {
        total += u32::from(count);
        *written = total;
    }
}

/// The entry of this number, where there is one. Totals never fall, and one that is equal to the one before is of a block without
/// entries.
pub fn find(totals: &[u32], entry: u32) -> Option<Found> {
    let block = totals.partition_point(|&total| total <= entry);
    let before = block.checked_sub(1).map_or(0, |last| totals[last]);
    (block < totals.len()).then(|| Found {
        block: block as u8,
        inside: (entry - before) as u16,
    })
}

#[cfg(test)]
mod tests {
    use super::*;

    fn totals_of(counts: &[u16]) -> Vec<u32> {
        let sums = counts.iter().scan(0, |sum, &count| {
            *sum += u32::from(count);
            Some(*sum)
        });
        sums.collect()
    }

    /// Counts of so many blocks, zero and the highest among them.
    fn counts(blocks: usize) -> Vec<u16> {
        (0..blocks).map(|i| [0, 65_535, 1, 0, 0, 257][i % 6]).collect()
    }

    #[test]
    fn one_wrong_total_is_seen_at_every_place() {
        for blocks in 0..=64 {
            let (counts, right) = (counts(blocks), totals_of(&counts(blocks)));
            assert!(!are_unlike(&right, &counts));
            for place in 0..blocks {
                for wrong in [1, 65_536, 1 << 31, u32::MAX] {
                    let mut totals = right.clone();
                    totals[place] = totals[place].wrapping_add(wrong);
                    assert!(are_unlike(&totals, &counts), "{blocks} {place} {wrong}");
                    // and with all later ones in step with it
                    totals[place + 1..]
                        .iter_mut()
                        .for_each(|total| *total = total.wrapping_add(wrong));
                    assert!(are_unlike(&totals, &counts), "{blocks} {place} {wrong}");
                }
            }
        }
    }

    #[test]
    fn totals_are_written_from_the_old_length_to_the_new_one() {
        for old in 0..=64 {
            for new in old..=64 {
                let all = counts(new);
                let mut totals = [7; 64];
                totals[..old].copy_from_slice(&totals_of(&all[..old]));
                extend(&mut totals, &all, old);
                assert_eq!(totals[..new], totals_of(&all));
                assert!(totals[new..].iter().all(|&total| total == 7));
            }
        }
    }

    #[test]
    fn the_first_total_above_the_number_is_its_block() {
        let found = |totals: &[u32], entry| find(totals, entry).map(|found| (found.block, found.inside));
        assert_eq!([0, 1, u32::MAX].map(|entry| found(&[], entry)), [None; 3]);
        assert_eq!([0, u32::MAX].map(|entry| found(&[0, 0, 0], entry)), [None; 2]);
        let all: Vec<_> = (0..5).map(|entry| found(&[0, 2, 2, 2, 4, 4], entry)).collect();
        assert_eq!(all, [Some((1, 0)), Some((1, 1)), Some((4, 0)), Some((4, 1)), None]);
        let most = totals_of(&[65_535; 64]);
        assert_eq!((found(&most, 4_194_239), found(&most, 4_194_240)), (Some((63, 65_534)), None));
    }
}
