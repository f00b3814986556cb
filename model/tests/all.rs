//! The tests of the whole, and the programs with theirs. They are part of the library's own tests (src/lib.rs), so that `cargo test`
//! builds it once.
mod entries;
mod records;
mod rolls;
mod sketches;
mod taught;
mod volumes;

#[allow(dead_code)]
#[path = "../src/bin/bench.rs"]
mod bench;
#[allow(dead_code)]
#[path = "../src/bin/counts.rs"]
mod counts;
#[allow(dead_code)]
#[path = "../src/bin/sketch.rs"]
mod sketch;
#[allow(dead_code)]
#[path = "../src/bin/soak.rs"]
mod soak;
