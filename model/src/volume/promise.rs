//! What demand 3 promises of lists that meet its premises.
use super::keeper::Keeper;
use crate::history::message::{conflict, Log};
use std::fmt;

/// A decision: whose, and at which beat.
#[derive(Clone, Copy, PartialEq, Eq, Debug)]
pub struct Decision {
    pub bench: u8,
    pub beat: u32,
}

/// One way in which the promise is broken.
#[derive(Clone, PartialEq, Eq, Debug)]
pub enum Broken {
    Conflict {
        one: Decision,
        other: Decision,
        logs: [Log; 2],
    },
    /// After this many calls the standing log is not the longest decided so far.
    Standing {
        bench: u8,
        calls: usize,
    },
    /// After this many calls the mark is set.
    Parted {
        bench: u8,
        calls: usize,
    },
}

impl fmt::Display for Broken {
    fn fmt(&self, out: &mut fmt::Formatter) -> fmt::Result {
        let names = |log: &Log| log.iter().map(|block| block.name).collect::<Vec<u64>>();
        match self {
            Broken::Conflict {
                one,
                other,
                logs: [first, second],
            } => {
                let (first, second) = (names(first), names(second));
                write!(out, "bench {} decided {first:?} at beat {}, ", one.bench, one.beat)?;
                write!(out, "bench {} decided {second:?} at beat {}", other.bench, other.beat)
            }
            Broken::Standing { bench, calls } => write!(out, "bench {bench}, after {calls} calls: not the longest decided"),
            Broken::Parted { bench, calls } => write!(out, "bench {bench}, after {calls} calls: parted"),
        }
    }
}

/// The first conflict of two decided logs, at two benches or at one, in any views.
pub fn first_conflict(keepers: &[Keeper]) -> Option<Broken> {
    let mut seen: Vec<(Decision, &Log)> = vec![];
    for keeper in keepers {
        for entry in &keeper.list {
            let Some(log) = &entry.decided else { continue };
            let here = Decision {
                bench: keeper.own,
                beat: entry.beat.expect("an act has a beat"),
            };
            if let Some((there, other)) = seen.iter().find(|(_, other)| conflict(log, other)) {
                return Some(Broken::Conflict {
                    one: *there,
                    other: here,
                    logs: [other.to_vec(), log.clone()],
                });
            }
            if seen.iter().all(|(_, other)| *other != log) {
                seen.push((here, log));
            }
        }
    }
    None
}

/// The first start of this list after which the standing log is not the longest decided, empty if none; and after which the
/// mark is set.
pub fn broken_at(keeper: &Keeper) -> Vec<Broken> {
    let bench = keeper.own;
    let (mut longest, mut parted) = (Log::new(), None);
    let mut standing = (!keeper.fresh.is_empty()).then_some(Broken::Standing { bench, calls: 0 });
    for (place, entry) in keeper.list.iter().enumerate() {
        if let Some(log) = entry.decided.as_ref().filter(|log| log.len() > longest.len()) {
            longest = log.clone();
        }
        if entry.standing != longest {
            standing.get_or_insert(Broken::Standing { bench, calls: place + 1 });
        }
        if entry.parted {
            parted.get_or_insert(Broken::Parted { bench, calls: place + 1 });
        }
    }
    standing.into_iter().chain(parted).collect()
}

/// Everything these lists break of the promise: the first conflict, and each bench's own breaks.
pub fn broken(keepers: &[Keeper]) -> Vec<Broken> {
    first_conflict(keepers)
        .into_iter()
        .chain(keepers.iter().flat_map(broken_at))
        .collect()
}
