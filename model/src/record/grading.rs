//! The longest log that a majority supports, by one walk along the logs. From the empty log on, each step finds the block that
//! a majority goes on with (by the vote of Boyer and Moore: cancel unlike pairs, and only what is left can have a majority),
//! follows a log with that block as far as a majority shares it, and goes on with those that left it just there. A log's blocks
//! are walked about once, so 32 logs that differ late cost little more than 32 that are alike.
use super::lists::{Lists, Log};
use super::{senders, MOST_BLOCKS, MOST_SENDERS};

type Logs = [Log; MOST_SENDERS];

/// The longest log that at least `majority` of the supporters have as a prefix, where they are at least so many.
pub fn climb(lists: &Lists, logs: &Logs, supporters: u32, majority: u32) -> Log {
    let mut best = Log::EMPTY;
    let mut left = going_on(logs, supporters, 0);
    while let Some(leader) = vote(lists, logs, left, majority, best.blocks) {
        let reached = follow(lists, logs, left, leader, best.blocks);
        best = Log {
            at: leader.at,
            blocks: most_shared(&reached, left, majority),
        };
        let parting = senders(left)
            .filter(|&i| reached[i] as usize == best.blocks)
            .fold(0, |set, i| set | 1 << i);
        left = going_on(logs, parting, best.blocks);
    }
    best
}

/// Those whose log has more than `depth` blocks.
fn going_on(logs: &Logs, set: u32, depth: usize) -> u32 {
    senders(set)
        .filter(|&i| logs[i].blocks > depth)
        .fold(0, |set, i| set | 1 << i)
}

/// A log whose next block a majority has.
fn vote(lists: &Lists, logs: &Logs, left: u32, majority: u32, depth: usize) -> Option<Log> {
    if left.count_ones() < majority {
        return None;
    }
    let next = |sender: usize| lists.block(logs[sender].at + depth);
    let mut leader = 0;
    let mut block = next(leader);
    let mut votes = 0;
    for i in senders(left) {
        if votes == 0 {
            (leader, block) = (i, next(i));
        }
        votes += if next(i) == block { 1 } else { -1 };
    }
    let having = senders(left).filter(|&i| next(i) == block).count();
    (having as u32 >= majority).then_some(logs[leader])
}

/// How many blocks each shares with the leader; all share the first `depth`.
fn follow(lists: &Lists, logs: &Logs, left: u32, leader: Log, depth: usize) -> [u8; MOST_SENDERS] {
    let past = |log: Log| Log {
        at: log.at + depth,
        blocks: log.blocks - depth,
    };
    let mut reached = [0; MOST_SENDERS];
    for i in senders(left) {
        reached[i] = (depth + lists.shared(past(leader), past(logs[i]))) as u8;
    }
    reached
}

/// The most blocks that a majority shares.
fn most_shared(reached: &[u8; MOST_SENDERS], left: u32, majority: u32) -> usize {
    let mut tally = [0u32; MOST_BLOCKS + 1];
    for i in senders(left) {
        tally[reached[i] as usize] += 1;
    }
    let mut blocks = MOST_BLOCKS;
    let mut sharing = tally[blocks];
    while sharing < majority {
        blocks -= 1;
        sharing += tally[blocks];
    }
    blocks
}

#[cfg(test)]
mod tests {
    use super::super::lists::{Block, LEAST_LENT};
    use super::*;

    /// Random numbers below n, from a seed (xorshift).
    fn below(state: &mut u64, n: u64) -> usize {
        *state ^= *state << 13;
        *state ^= *state >> 7;
        *state ^= *state << 17;
        (*state % n) as usize
    }

    /// The most blocks of a prefix of any log that a majority has as a prefix, by trying each.
    fn by_trying(lists: &Lists, logs: &Logs, supporters: u32, majority: u32) -> usize {
        let having = |log: Log| senders(supporters).filter(|&i| lists.is_prefix(log, logs[i])).count() as u32;
        let prefixes = senders(supporters).flat_map(|i| (0..=logs[i].blocks).map(move |blocks| Log { at: logs[i].at, blocks }));
        prefixes
            .filter(|&log| having(log) >= majority)
            .map(|log| log.blocks)
            .max()
            .unwrap()
    }

    #[test]
    fn the_walk_finds_what_trying_each_prefix_finds() {
        let mut state = 88_172_645_463_325_252;
        let mut found = [0; MOST_BLOCKS + 1];
        for _ in 0..3_000 {
            let mut names = vec![1; LEAST_LENT];
            let mut counts = vec![1; LEAST_LENT];
            let depth = 1 + below(&mut state, 64);
            for _ in 0..below(&mut state, 20) {
                let place = MOST_BLOCKS * below(&mut state, 32) + below(&mut state, depth as u64);
                (names[place], counts[place]) = (1 + below(&mut state, 2) as u64, 1 + below(&mut state, 2) as u16);
            }
            let logs: Logs = std::array::from_fn(|i| {
                let cut = below(&mut state, 4) * below(&mut state, 2) * below(&mut state, depth as u64) / 3;
                Log {
                    at: MOST_BLOCKS * i,
                    blocks: depth - cut,
                }
            });
            let lists = Lists::of(&mut names, &mut counts).unwrap();
            let supporters = (state >> 20) as u32 | 1;
            let majority = 1 + below(&mut state, supporters.count_ones() as u64) as u32;
            let majority = majority.max(supporters.count_ones() / 2 + 1);
            let best = climb(&lists, &logs, supporters, majority);
            assert_eq!(best.blocks, by_trying(&lists, &logs, supporters, majority));
            assert!(senders(supporters).filter(|&i| lists.is_prefix(best, logs[i])).count() as u32 >= majority);
            found[best.blocks] += 1;
        }
        assert!(found.iter().filter(|&&times| times > 0).count() > 60, "{found:?}");
    }

    #[test]
    fn counts_are_compared_as_names_are() {
        let (mut names, mut counts) = (vec![7; LEAST_LENT], vec![1; LEAST_LENT]);
        (0..3).for_each(|i| counts[MOST_BLOCKS * i + 40] = i as u16);
        let logs: Logs = std::array::from_fn(|i| Log {
            at: MOST_BLOCKS * i,
            blocks: 64,
        });
        let lists = Lists::of(&mut names, &mut counts).unwrap();
        assert_eq!(lists.block(MOST_BLOCKS + 40), Block { name: 7, count: 1 });
        assert_eq!(climb(&lists, &logs, 0b111, 2).blocks, 40);
        assert_eq!(climb(&lists, &logs, 0b1010, 2).blocks, 64);
    }
}
