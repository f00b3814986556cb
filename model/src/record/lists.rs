//! The lent lists of blocks and the logs in them: those of two agreements, the proposed ones, the decided one.
use super::message::LogBytes;
use super::totals::LEAST_TOTALS;
use super::{MOST_BLOCKS, MOST_SENDERS};
use std::ops::{BitOr, BitXor};

const SPAN: usize = MOST_SENDERS * MOST_BLOCKS;
pub const PROPOSALS_PLACE: usize = 2 * SPAN;
pub const DECIDED_PLACE: usize = 3 * SPAN;

/// The least length of a lent list of blocks.
pub const LEAST_LENT: usize = DECIDED_PLACE + MOST_BLOCKS;

/// The place of the first log of a view's agreement.
pub fn logs_place(view: u32) -> usize {
    SPAN * (view as usize % 2)
}

/// A block: its name and its entry count.
#[derive(Clone, Copy, Debug, PartialEq, Eq)]
pub struct Block {
    pub name: u64,
    pub count: u16,
}

/// A log in the lists: where it stands, and its blocks.
#[derive(Clone, Copy, Debug, PartialEq, Eq)]
pub struct Log {
    pub at: usize,
    pub blocks: usize,
}

impl Log {
    /// The empty log; no place of the lists is read for it.
    pub const EMPTY: Log = Log { at: 0, blocks: 0 };
}

/// A lent list is too short, the totals among them.
pub fn are_short(names: &[u64], counts: &[u16], totals: &[u32]) -> bool {
    names.len() < LEAST_LENT || counts.len() < LEAST_LENT || totals.len() < LEAST_TOTALS
}

/// The lent lists of blocks, known to be long enough.
pub struct Lists<'a> {
    names: &'a mut [u64; LEAST_LENT],
    counts: &'a mut [u16; LEAST_LENT],
}

impl<'a> Lists<'a> {
    /// None where a lent list is too short.
    pub fn of(names: &'a mut [u64], counts: &'a mut [u16]) -> Option<Lists<'a>> {
        Some(Lists {
            names: names.first_chunk_mut()?,
            counts: counts.first_chunk_mut()?,
        })
    }

    pub fn block(&self, place: usize) -> Block {
        Block {
            name: self.names[place],
            count: self.counts[place],
        }
    }

    pub fn names_of(&self, log: Log) -> &[u64] {
        &self.names[log.at..][..log.blocks]
    }

    pub fn counts_of(&self, log: Log) -> &[u16] {
        &self.counts[log.at..][..log.blocks]
    }

    /// How many blocks the two logs start with alike.
    pub fn shared(&self, one: Log, other: Log) -> usize {
        let names = first_difference(self.names_of(one), self.names_of(other));
        first_difference(&self.counts_of(one)[..names], &self.counts_of(other)[..names])
    }

    pub fn is_prefix(&self, one: Log, other: Log) -> bool {
        let start = Log {
            blocks: one.blocks,
            ..other
        };
        one.blocks <= other.blocks && self.names_of(one) == self.names_of(start) && self.counts_of(one) == self.counts_of(start)
    }

    /// The log in the bytes is this one. The differences are gathered without a branch for each block: that is the faster way
    /// where a known log comes again, which is the common case.
    pub fn holds(&self, log: Log, bytes: &LogBytes) -> bool {
        if log.blocks != bytes.blocks() {
            return false;
        }
        let names = self.names_of(log).iter().zip(bytes.names);
        let counts = self.counts_of(log).iter().zip(bytes.counts);
        names.fold(0, |all, (&name, &read)| all | (name ^ u64::from_le_bytes(read))) == 0
            && counts.fold(0, |all, (&count, &read)| all | (count ^ u16::from_le_bytes(read))) == 0
    }

    /// The log in the bytes is filed from this place on.
    pub fn file(&mut self, at: usize, bytes: &LogBytes) {
        let blocks = bytes.blocks();
        for (name, &read) in self.names[at..][..blocks].iter_mut().zip(bytes.names) {
            *name = u64::from_le_bytes(read);
        }
        for (count, &read) in self.counts[at..][..blocks].iter_mut().zip(bytes.counts) {
            *count = u16::from_le_bytes(read);
        }
    }

    /// The log becomes the decided one.
    pub fn decide(&mut self, log: Log) {
        self.names.copy_within(log.at..log.at + log.blocks, DECIDED_PLACE);
        self.counts.copy_within(log.at..log.at + log.blocks, DECIDED_PLACE);
    }
}

/// The place of the first difference, or the end of the shorter: eight at a time while they are alike, without a branch for
/// each, then one by one.
fn first_difference<T>(one: &[T], other: &[T]) -> usize
where
    T: Copy + Default + PartialEq + BitOr<Output = T> + BitXor<Output = T>,
{
    let is_alike = |&(x, y): &(&[T; 8], &[T; 8])| gathered_differences(x, y) == T::default();
    let eights = one.as_chunks().0.iter().zip(other.as_chunks().0);
    let alike = 8 * eights.take_while(is_alike).count();
    let rest = one[alike..].iter().zip(&other[alike..]);
    alike + rest.take_while(|(x, y)| x == y).count()
}

/// Zero where no two differ.
fn gathered_differences<T>(one: &[T; 8], other: &[T; 8]) -> T
where
    T: Copy + Default + BitOr<Output = T> + BitXor<Output = T>,
{
    one.iter().zip(other).fold(T::default(), |all, (&x, &y)| all | (x ^ y))
}

#[cfg(test)]
mod tests {
    use super::*;

    #[test]
    fn the_first_difference_is_met_at_every_place() {
        for length in 0..=64 {
            let one: Vec<u64> = (0..length).collect();
            assert_eq!(first_difference(&one, &one), one.len());
            for place in 0..one.len() {
                let mut other = one.clone();
                other[place] += 1_000;
                assert_eq!(first_difference(&one, &other), place);
                assert_eq!(first_difference(&one, &one[..place]), place);
            }
        }
    }

    #[test]
    fn lists_one_place_short_are_none() {
        let mut names = vec![0; LEAST_LENT];
        let mut counts = vec![0; LEAST_LENT];
        let totals = [0; 64];
        assert!(Lists::of(&mut names, &mut counts).is_some());
        assert!(Lists::of(&mut names[1..], &mut counts).is_none() && are_short(&names[1..], &counts, &totals));
        assert!(Lists::of(&mut names, &mut counts[1..]).is_none() && are_short(&names, &counts[1..], &totals));
        assert!(are_short(&names, &counts, &totals[1..]) && !are_short(&names, &counts, &totals));
    }
}
