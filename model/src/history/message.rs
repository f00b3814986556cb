//! Blocks, logs, and the one writing of each message (document 01, Words and The message).

/// The last view.
pub const LAST_VIEW: u32 = 1_000_000;
/// The most blocks a log has.
pub const MOST_BLOCKS: usize = 64;
/// The bytes before a message's blocks.
const HEAD: usize = 16;

/// A block: its name (not zero in a message) and its entry count.
#[derive(Clone, Copy, PartialEq, Eq, Debug, Hash, PartialOrd, Ord)]
pub struct Block {
    pub name: u64,
    pub count: u16,
}

/// A log (a chain): a list of at most 64 blocks.
pub type Log = Vec<Block>;

/// A LOG is a vote in a graded agreement, a PROPOSAL names a log to vote for.
#[derive(Clone, Copy, PartialEq, Eq, Debug)]
pub enum Kind {
    Log,
    Proposal,
}

/// A message as it is read; the priority of a LOG is zero.
#[derive(Clone, PartialEq, Eq, Debug)]
pub struct Message {
    pub kind: Kind,
    pub sender: u8,
    pub view: u32,
    pub priority: u64,
    pub log: Log,
}

/// Whether `q` starts with all of `p`'s blocks, names and counts alike.
pub fn is_prefix(p: &[Block], q: &[Block]) -> bool {
    q.starts_with(p)
}

/// Whether neither log is a prefix of the other.
pub fn conflict(p: &[Block], q: &[Block]) -> bool {
    !is_prefix(p, q) && !is_prefix(q, p)
}

impl Message {
    /// The message that `bytes` write among `n` benches, or the first of the refusals 1 to 6 that holds.
    pub fn read(n: u8, bytes: &[u8]) -> Result<Message, u8> {
        if bytes.len() < HEAD {
            return Err(1);
        }
        let k = usize::from(bytes[0]);
        if k > MOST_BLOCKS || bytes.len() != HEAD + 10 * k {
            return Err(2);
        }
        let priority = number(&bytes[8..16]);
        let kind = match (bytes[2], bytes[3]) {
            (1, 0) if priority == 0 => Kind::Log,
            (2, 0) => Kind::Proposal,
            _ => return Err(3),
        };
        let sender = bytes[1];
        if sender >= n {
            return Err(4);
        }
        let view = number(&bytes[4..8]) as u32;
        if view > LAST_VIEW {
            return Err(5);
        }
        let log = read_blocks(k, &bytes[HEAD..]);
        if log.iter().any(|block| block.name == 0) {
            return Err(6);
        }
        Ok(Message {
            kind,
            sender,
            view,
            priority,
            log,
        })
    }

    /// The one writing of this message.
    pub fn write(&self) -> Vec<u8> {
        let kind = match self.kind {
            Kind::Log => 1,
            Kind::Proposal => 2,
        };
        let mut bytes = vec![self.log.len() as u8, self.sender, kind, 0];
        bytes.extend(self.view.to_le_bytes());
        bytes.extend(self.priority.to_le_bytes());
        bytes.extend(self.log.iter().flat_map(|block| block.name.to_le_bytes()));
        bytes.extend(self.log.iter().flat_map(|block| block.count.to_le_bytes()));
        bytes
    }
}

/// `k` names of eight bytes and then `k` counts of two, in step.
fn read_blocks(k: usize, bytes: &[u8]) -> Log {
    let (names, counts) = bytes.split_at(8 * k);
    let pairs = names.chunks_exact(8).zip(counts.chunks_exact(2));
    pairs
        .map(|(name, count)| Block {
            name: number(name),
            count: number(count) as u16,
        })
        .collect()
}

/// A number from up to eight little-endian bytes.
pub fn number(bytes: &[u8]) -> u64 {
    bytes.iter().rev().fold(0, |high, &byte| high << 8 | u64::from(byte))
}

#[cfg(test)]
mod tests {
    use super::*;

    fn log(blocks: &[(u64, u16)]) -> Log {
        blocks.iter().map(|&(name, count)| Block { name, count }).collect()
    }

    fn vote(k: usize) -> Message {
        let log = (0..k)
            .map(|place| Block {
                name: u64::MAX - place as u64,
                count: place as u16 * 1_000,
            })
            .collect();
        Message {
            kind: Kind::Log,
            sender: 3,
            view: LAST_VIEW,
            priority: 0,
            log,
        }
    }

    fn with(message: &Message, place: usize, byte: u8) -> Vec<u8> {
        let mut bytes = message.write();
        bytes[place] = byte;
        bytes
    }

    #[test]
    fn what_is_written_is_read_back() {
        for k in 0..=MOST_BLOCKS {
            let vote = vote(k);
            let proposal = Message {
                kind: Kind::Proposal,
                priority: 0x0102_0304_0506_0708,
                ..vote.clone()
            };
            for message in [vote, proposal] {
                let bytes = message.write();
                assert_eq!(bytes.len(), 16 + 10 * k);
                assert_eq!(Message::read(4, &bytes), Ok(message));
            }
        }
    }

    #[test]
    fn the_writing_is_little_endian_names_before_counts() {
        let log = log(&[(5, 1), (0x0102, 0x0304)]);
        let bytes = Message {
            kind: Kind::Proposal,
            sender: 7,
            view: 0x0A_0B0C,
            priority: 9,
            log,
        }
        .write();
        let head = [2, 7, 2, 0, 0x0C, 0x0B, 0x0A, 0, 9, 0, 0, 0, 0, 0, 0, 0];
        let blocks = [5, 0, 0, 0, 0, 0, 0, 0, 2, 1, 0, 0, 0, 0, 0, 0, 1, 0, 4, 3];
        assert_eq!(bytes, [&head[..], &blocks[..]].concat());
    }

    #[test]
    fn lengths_outside_the_form_are_refused() {
        let one = vote(1).write();
        assert_eq!(Message::read(4, &[]), Err(1));
        assert_eq!(Message::read(4, &vote(0).write()[..15]), Err(1));
        assert_eq!(Message::read(4, &one[..25]), Err(2));
        assert_eq!(Message::read(4, &[&one[..], &[0]].concat()), Err(2));
        let mut long = vote(64).write();
        long.extend([1; 10]);
        long[0] = 65;
        assert_eq!(Message::read(4, &long), Err(2));
    }

    #[test]
    fn each_field_out_of_range_is_refused_by_its_number() {
        let vote = vote(2);
        let proposal = Message {
            kind: Kind::Proposal,
            ..vote.clone()
        };
        for kind in [0, 3, 255] {
            assert_eq!(Message::read(4, &with(&vote, 2, kind)), Err(3));
        }
        for place in [3, 8, 15] {
            assert_eq!(Message::read(4, &with(&vote, place, 1)), Err(3));
        }
        assert_eq!(Message::read(4, &with(&proposal, 3, 1)), Err(3));
        assert!(Message::read(4, &with(&proposal, 15, 1)).is_ok());
        assert_eq!(Message::read(3, &vote.write()), Err(4));
        assert_eq!(
            Message::read(
                4,
                &Message {
                    view: LAST_VIEW + 1,
                    ..vote.clone()
                }
                .write()
            ),
            Err(5)
        );
        assert_eq!(
            Message::read(
                4,
                &Message {
                    log: log(&[(1, 1), (0, 1)]),
                    ..vote
                }
                .write()
            ),
            Err(6)
        );
    }

    #[test]
    fn the_first_refusal_that_holds_is_given() {
        let bad = Message {
            sender: 9,
            view: LAST_VIEW + 1,
            log: log(&[(0, 0)]),
            ..vote(0)
        };
        assert_eq!(Message::read(4, &with(&bad, 2, 7)), Err(3), "a bad kind before a bad sender");
        assert_eq!(Message::read(4, &bad.write()), Err(4));
        assert_eq!(Message::read(10, &bad.write()), Err(5));
    }

    #[test]
    fn counts_of_zero_repeated_names_and_proposals_of_no_blocks_are_messages() {
        let odd = Message {
            kind: Kind::Proposal,
            log: log(&[(5, 0), (5, 0)]),
            ..vote(0)
        };
        assert_eq!(Message::read(4, &odd.write()), Ok(odd.clone()));
        let none = Message { log: vec![], ..odd };
        assert_eq!(Message::read(4, &none.write()), Ok(none));
    }

    #[test]
    fn prefixes_have_names_and_counts_alike() {
        let (five, other) = (log(&[(5, 1)]), log(&[(5, 2)]));
        let longer = log(&[(5, 1), (6, 1)]);
        assert!(is_prefix(&[], &[]) && is_prefix(&[], &five) && is_prefix(&five, &five) && is_prefix(&five, &longer));
        assert!(!is_prefix(&longer, &five) && !conflict(&longer, &five) && !conflict(&five, &longer));
        assert!(conflict(&five, &other) && conflict(&other, &longer) && !conflict(&[], &other));
    }
}
