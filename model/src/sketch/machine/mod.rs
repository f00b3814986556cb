//! One bench as the player of a sketch sees it, whatever runs inside.
pub mod model;
pub mod proved;

use super::page::Page;
use crate::history::bench::{Call, Reply};
use crate::history::message::Log;

pub trait Machine {
    /// Makes a call.
    fn call(&mut self, call: &Call) -> Reply;

    /// The log that the last call decided, even where that changed nothing.
    fn decided(&self) -> Option<Log>;

    /// The decided log that stands, and whether the mark is set.
    fn standing(&self) -> (Log, bool);

    /// What the program of a roll prints of the calls so far.
    fn text(&self) -> &str;

    /// What it holds after the calls so far.
    fn page(&self) -> Page;
}
