//! Pictures of stories made by hand.
mod builder;
mod content;
mod form;
mod large;
mod odd;
mod order;
mod seen;
mod stories;
mod troubled;
mod wrong;
mod xml;
