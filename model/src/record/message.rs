//! The message: reading with refusals 1 to 6, and writing.
use super::{Block, Refusal, LAST_VIEW, MOST_BLOCKS};

const HEAD_LENGTH: usize = 16;
const LOG_KIND: u8 = 1;
const PROPOSAL_KIND: u8 = 2;

/// The length of a message of 64 blocks.
pub const MOST_BYTES: usize = HEAD_LENGTH + 10 * MOST_BLOCKS;

/// The log in a message's bytes.
pub struct LogBytes<'a> {
    pub names: &'a [[u8; 8]],
    pub counts: &'a [[u8; 2]],
}

impl<'a> LogBytes<'a> {
    /// The blocks of what follows the head: its names, then its counts.
    fn after_head(bytes: &'a [u8], blocks: usize) -> LogBytes<'a> {
        let (names, counts) = bytes.split_at(8 * blocks);
        LogBytes {
            names: names.as_chunks().0,
            counts: counts.as_chunks().0,
        }
    }

    pub fn blocks(&self) -> usize {
        self.names.len()
    }

    /// Without a branch for each name: nearly always none is zero, and then each is looked at.
    fn has_zero_name(&self) -> bool {
        self.names
            .iter()
            .fold(false, |zero, &name| zero | (u64::from_le_bytes(name) == 0))
    }
}

#[derive(Clone, Copy, Debug, PartialEq, Eq)]
pub enum Kind {
    Log,
    Proposal { priority: u64 },
}

impl Kind {
    /// The kind's byte, and the priority, which is zero in a LOG.
    fn written(self) -> (u8, u64) {
        match self {
            Kind::Log => (LOG_KIND, 0),
            Kind::Proposal { priority } => (PROPOSAL_KIND, priority),
        }
    }
}

/// Who sends which kind of message, of which view.
#[derive(Clone, Copy, Debug, PartialEq, Eq)]
pub struct Head {
    pub kind: Kind,
    pub sender: u8,
    pub view: u32,
}

/// What the bytes mean in a register of n benches, or the first refusal of 1 to 6 that holds.
pub fn read(n: u8, bytes: &[u8]) -> Result<(Head, LogBytes<'_>), Refusal> {
    let (head, rest) = bytes.split_first_chunk::<HEAD_LENGTH>().ok_or(1)?;
    let &[blocks, sender, kind, zero, v0, v1, v2, v3, priority @ ..] = head;
    let blocks = blocks as usize;
    if blocks > MOST_BLOCKS || rest.len() != 10 * blocks {
        return Err(2);
    }
    let kind = match (kind, u64::from_le_bytes(priority)) {
        (LOG_KIND, 0) if zero == 0 => Kind::Log,
        (PROPOSAL_KIND, priority) if zero == 0 => Kind::Proposal { priority },
        _ => return Err(3),
    };
    if sender >= n {
        return Err(4);
    }
    let view = u32::from_le_bytes([v0, v1, v2, v3]);
    if view > LAST_VIEW {
        return Err(5);
    }
    let log = LogBytes::after_head(rest, blocks);
    if log.has_zero_name() {
        return Err(6);
    }
    Ok((Head { kind, sender, view }, log))
}

/// Writes the message of these blocks, and of one more, at the front of the buffer; bytes past it keep their values.
pub fn write<'a>(
    out: &'a mut [u8; MOST_BYTES],
    head: Head,
    names: &[u64],
    counts: &[u16],
    more: Option<Block>,
) -> LogBytes<'a> {
    let blocks = names.len() + more.iter().len();
    let (start, rest) = out.split_at_mut(HEAD_LENGTH);
    let (kind, priority) = head.kind.written();
    start[..4].copy_from_slice(&[blocks as u8, head.sender, kind, 0]);
    start[4..8].copy_from_slice(&head.view.to_le_bytes());
    start[8..].copy_from_slice(&priority.to_le_bytes());
    let (name_bytes, count_bytes) = rest[..10 * blocks].split_at_mut(8 * blocks);
    for (written, name) in name_bytes.as_chunks_mut().0.iter_mut().zip(names) {
        *written = name.to_le_bytes();
    }
    for (written, count) in count_bytes.as_chunks_mut().0.iter_mut().zip(counts) {
        *written = count.to_le_bytes();
    }
    if let Some(block) = more {
        name_bytes[8 * names.len()..].copy_from_slice(&block.name.to_le_bytes());
        count_bytes[2 * names.len()..].copy_from_slice(&block.count.to_le_bytes());
    }
    LogBytes::after_head(&out[HEAD_LENGTH..][..10 * blocks], blocks)
}

/// A message as bytes of its own, for the rolls of tests and benchmarks.
fn bytes_of(head: Head, log: &[Block]) -> Vec<u8> {
    let names: Vec<u64> = log.iter().map(|block| block.name).collect();
    let counts: Vec<u16> = log.iter().map(|block| block.count).collect();
    let mut out = [0; MOST_BYTES];
    write(&mut out, head, &names, &counts, None);
    out[..HEAD_LENGTH + 10 * log.len()].to_vec()
}

pub fn log_bytes(sender: u8, view: u32, log: &[Block]) -> Vec<u8> {
    bytes_of(
        Head {
            kind: Kind::Log,
            sender,
            view,
        },
        log,
    )
}

pub fn proposal_bytes(sender: u8, view: u32, priority: u64, log: &[Block]) -> Vec<u8> {
    bytes_of(
        Head {
            kind: Kind::Proposal { priority },
            sender,
            view,
        },
        log,
    )
}

#[cfg(test)]
mod tests {
    use super::*;

    const BLOCK: Block = Block { name: 5, count: 1 };

    fn refusal(bytes: &[u8]) -> Option<Refusal> {
        read(4, bytes).err()
    }

    fn edited(bytes: &[u8], place: usize, byte: u8) -> Vec<u8> {
        let mut edited = bytes.to_vec();
        edited[place] = byte;
        edited
    }

    #[test]
    fn lengths_are_judged_first() {
        assert_eq!(refusal(&log_bytes(0, 0, &[])), None);
        assert_eq!(refusal(&log_bytes(0, 0, &[BLOCK; 64])), None);
        assert_eq!(refusal(&[0; 15]), Some(1));
        assert_eq!(refusal(&log_bytes(0, 0, &[BLOCK])[..25]), Some(2));
        let mut long = log_bytes(0, 0, &[BLOCK; 64]);
        long.extend([1; 10]);
        long[0] = 65;
        assert_eq!(refusal(&long), Some(2));
    }

    #[test]
    fn each_fault_has_its_number_and_the_first_is_given() {
        let log = log_bytes(3, LAST_VIEW, &[BLOCK]);
        assert_eq!(refusal(&edited(&log, 2, 3)), Some(3));
        assert_eq!(refusal(&edited(&log, 3, 1)), Some(3));
        assert_eq!(refusal(&edited(&log, 15, 1)), Some(3));
        assert_eq!(refusal(&edited(&edited(&log, 2, 0), 1, 4)), Some(3));
        assert_eq!(refusal(&edited(&log, 1, 4)), Some(4));
        assert_eq!(refusal(&log_bytes(3, LAST_VIEW + 1, &[BLOCK])), Some(5));
        assert_eq!(refusal(&edited(&log, 16, 0)), Some(6));
    }

    #[test]
    fn what_is_written_is_read() {
        let log = [Block { name: 1 << 60, count: 3 }, Block { name: 7, count: 65_535 }];
        let bytes = proposal_bytes(2, 70_000, 1 << 50, &log);
        let (head, read) = read(4, &bytes).ok().unwrap();
        assert_eq!(
            head,
            Head {
                kind: Kind::Proposal { priority: 1 << 50 },
                sender: 2,
                view: 70_000
            }
        );
        assert_eq!(read.names, [(1u64 << 60).to_le_bytes(), 7u64.to_le_bytes()]);
        assert_eq!(read.counts, [3u16.to_le_bytes(), 65_535u16.to_le_bytes()]);
    }
}
