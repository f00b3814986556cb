//! Sketches: a schedule of many benches in a small text notation, played through the proved code, told in plain lines and drawn
//! in one picture (docs/SKETCHES.md teaches the notation).
pub mod failures;
pub mod lines;
pub mod machine;
pub mod notation;
pub mod page;
pub mod picture;
pub mod play;
pub mod post;
#[cfg(test)]
mod samples;
pub mod schedule;
pub mod story;
mod words;
