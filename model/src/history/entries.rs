//! Entries by their numbers (document 02, request 1): numbered from 0 through all blocks of a log, of which a block of count k
//! holds k.
use super::message::Block;

/// The refusal of an entry number at or above the total.
pub const NO_ENTRY: u8 = 23;

/// Where an entry stands: the place of its block in the log, and its place inside that block, both from 0.
#[derive(Clone, Copy, PartialEq, Eq, Debug)]
pub struct Found {
    pub block: u8,
    pub inside: u16,
}

/// The running totals of a log's entry counts, each through its own block.
pub fn totals(log: &[Block]) -> Vec<u32> {
    let mut total = 0;
    let through = |block: &Block| {
        total += u32::from(block.count);
        total
    };
    log.iter().map(through).collect()
}

/// How many entries the blocks of a log hold.
pub fn entries_in(log: &[Block]) -> u32 {
    totals(log).last().copied().unwrap_or(0)
}

/// The entry of this number, or refusal 23.
pub fn find(log: &[Block], entry: u32) -> Result<Found, u8> {
    let totals = totals(log);
    let block = totals.iter().position(|&total| entry < total).ok_or(NO_ENTRY)?;
    let before = if block == 0 { 0 } else { totals[block - 1] };
    Ok(Found {
        block: block as u8,
        inside: (entry - before) as u16,
    })
}

#[cfg(test)]
mod tests {
    use super::*;

    fn log(counts: &[u16]) -> Vec<Block> {
        (1..).zip(counts).map(|(name, &count)| Block { name, count }).collect()
    }

    fn found(counts: &[u16], entry: u32) -> Result<(u8, u16), u8> {
        find(&log(counts), entry).map(|found| (found.block, found.inside))
    }

    #[test]
    fn each_total_is_through_its_own_block() {
        assert_eq!(totals(&[]), []);
        assert_eq!(totals(&log(&[3])), [3]);
        assert_eq!(totals(&log(&[0, 2, 0, 5, 0])), [0, 2, 2, 7, 7]);
        let most: Vec<u32> = (1..=64).map(|blocks| 65_535 * blocks).collect();
        assert_eq!((totals(&log(&[65_535; 64])), most.last()), (most.clone(), Some(&4_194_240)));
    }

    #[test]
    fn first_and_last_entry_of_each_block() {
        let counts = [2, 1, 3];
        let all: Vec<_> = (0..6).map(|entry| found(&counts, entry)).collect();
        assert_eq!(all, [Ok((0, 0)), Ok((0, 1)), Ok((1, 0)), Ok((2, 0)), Ok((2, 1)), Ok((2, 2))]);
        assert_eq!((found(&counts, 6), found(&counts, 7)), (Err(23), Err(23)));
        assert_eq!(found(&counts, u32::MAX), Err(23));
    }

    #[test]
    fn blocks_of_count_zero_hold_no_entry() {
        let at = |counts: &[u16]| [0, 1, 2, 3].map(|entry| found(counts, entry));
        assert_eq!(at(&[0, 0, 2]), [Ok((2, 0)), Ok((2, 1)), Err(23), Err(23)], "in front");
        assert_eq!(at(&[1, 0, 0, 2]), [Ok((0, 0)), Ok((3, 0)), Ok((3, 1)), Err(23)], "between");
        assert_eq!(at(&[2, 0, 0]), [Ok((0, 0)), Ok((0, 1)), Err(23), Err(23)], "at the end");
        assert_eq!(at(&[0, 1, 0, 1, 0]), [Ok((1, 0)), Ok((3, 0)), Err(23), Err(23)], "all around");
        assert_eq!(at(&[0]), [Err(23); 4], "one");
        assert_eq!(at(&[0; 64]), [Err(23); 4], "all of them");
    }

    #[test]
    fn the_empty_log_has_no_entry() {
        assert_eq!([0, 1, u32::MAX].map(|entry| found(&[], entry)), [Err(23); 3]);
    }

    #[test]
    fn sixty_four_blocks_of_the_highest_count() {
        let counts = [65_535; 64];
        for block in 0..64 {
            let first = 65_535 * u32::from(block);
            assert_eq!(found(&counts, first), Ok((block, 0)));
            assert_eq!(found(&counts, first + 65_534), Ok((block, 65_534)));
        }
        assert_eq!(found(&counts, 4_194_239), Ok((63, 65_534)));
        assert_eq!(
            [4_194_240, 4_194_241, u32::MAX].map(|entry| found(&counts, entry)),
            [Err(23); 3]
        );
    }

    /// Each entry of a log in its turn, block by block.
    fn one_by_one(log: &[Block]) -> Vec<Found> {
        let entries = (0..)
            .zip(log)
            .flat_map(|(block, held)| (0..held.count).map(move |inside| Found { block, inside }));
        entries.collect()
    }

    #[test]
    fn entries_are_found_where_counting_them_one_by_one_comes_to() {
        for counts in [
            &[][..],
            &[1],
            &[0, 3, 0, 0, 1, 2, 0],
            &[300, 0, 1, 257],
            &[0, 0, 65_535, 1, 0],
        ] {
            let (log, all) = (log(counts), one_by_one(&log(counts)));
            assert_eq!(entries_in(&log), all.len() as u32);
            let looked_up: Vec<Found> = (0..all.len() as u32).map_while(|entry| find(&log, entry).ok()).collect();
            assert!(looked_up == all, "{counts:?}");
            assert_eq!(find(&log, all.len() as u32), Err(NO_ENTRY));
        }
    }
}
