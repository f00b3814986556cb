//! Messages by their parts.
use crate::history::message::{Kind, Log, Message};

/// A LOG.
pub fn vote(sender: u8, view: u32, log: Log) -> Message {
    let (kind, priority) = (Kind::Log, 0);
    Message {
        kind,
        sender,
        view,
        priority,
        log,
    }
}

/// A PROPOSAL.
pub fn proposal(sender: u8, view: u32, priority: u64, log: Log) -> Message {
    let kind = Kind::Proposal;
    Message {
        kind,
        sender,
        view,
        priority,
        log,
    }
}
