//! One bench by its history: a list of what happened to it, and everything else worked out from that list by the words of
//! document 01. Nothing is forgotten here, and there is no record to get wrong.
//!
//! Document 01's own words, with the field's terms for them: a *bench* is a validator (a process), a *beat* is one delay bound
//! (a round), *parted* is the flag of a bench that decided two conflicting logs, a *roll* is a recorded trace of calls.
pub mod agreement;
pub mod bench;
pub mod entries;
pub mod message;
pub mod roll;

#[cfg(test)]
mod schedules;
