//! Independent of the proved code, and held against it: a model of one bench by its history, random rolls, volumes of many
//! benches, and a record implementation for the benchmark.
pub mod bench_cases;
pub mod history;
pub mod proved;
pub mod record;
pub mod rolls;
pub mod sketch;
pub mod volume;

// By this name the tests of the whole and the programs know the library.
#[cfg(test)]
extern crate self as model;
#[cfg(test)]
#[path = "../tests/all.rs"]
mod all;
