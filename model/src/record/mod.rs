//! One bench as a record, written for speed in safe Rust: state is changed in place, sets of senders are bit masks, logs are
//! compared as slices. It gives the answers of documents 01 and 02 call by call, refusals 9 and 8 tested in each, as the proved
//! code does; the benchmark measures that code against this one.
mod acts;
mod agreement;
mod bench;
mod desk;
mod grading;
mod lists;
mod message;
mod proposals;
pub mod roll;
mod text;
mod totals;

#[cfg(test)]
mod entries;
#[cfg(test)]
mod schedules;

pub use bench::Bench;
pub use desk::Desk;
pub use lists::{Block, LEAST_LENT};
pub use message::{log_bytes, proposal_bytes, MOST_BYTES};
pub use roll::write_roll_text;
pub use totals::{Found, LEAST_TOTALS};

/// The most benches of a register, and the most blocks of a log.
pub const MOST_SENDERS: usize = 32;
pub const MOST_BLOCKS: usize = 64;

pub const LAST_VIEW: u32 = 1_000_000;
pub const LAST_BEAT: u32 = 4 * LAST_VIEW + 6;

/// The word on a message taken.
#[derive(Clone, Copy, Debug, PartialEq, Eq)]
pub enum Word {
    First,
    Second,
    Known,
}

/// What an act made, with its blocks. The message stands at the front of the outgoing buffer.
#[derive(Clone, Copy, Debug, PartialEq, Eq)]
pub enum Made {
    Nothing,
    Log(u8),
    Proposal(u8),
}

/// A refusal, by its number.
pub type Refusal = u8;

/// The senders in a set, lowest first.
fn senders(set: u32) -> impl Iterator<Item = usize> {
    let mut left = set;
    std::iter::from_fn(move || {
        let lowest = (left != 0).then(|| left.trailing_zeros() as usize);
        left &= left.wrapping_sub(1);
        lowest
    })
}
