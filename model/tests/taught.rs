//! The worked examples of docs/SKETCHES.md: every block of text there is a stored sketch, or what the tool says of one.
use model::sketch::{lines, notation, play};
use std::fs;
use std::path::{Path, PathBuf};

fn top() -> PathBuf {
    Path::new(env!("CARGO_MANIFEST_DIR")).join("..")
}

fn read(path: &str) -> String {
    fs::read_to_string(top().join(path)).unwrap_or_else(|error| panic!("{path}: {error}"))
}

/// The names of the stored sketches.
fn stored() -> Vec<String> {
    let entries = fs::read_dir(top().join("docs/sketches")).expect("sketches are stored");
    let names = entries.map(|entry| entry.unwrap().file_name().to_string_lossy().into_owned());
    names
        .filter_map(|name| name.strip_suffix(".sketch").map(str::to_string))
        .collect()
}

/// The part of the page with the examples.
fn examples() -> String {
    let page = read("docs/SKETCHES.md");
    let below = page.split("\n## Worked examples\n").nth(1).expect("the page has examples");
    below.split("\n## ").next().unwrap_or_default().to_string()
}

/// The blocks of text set off from the words.
fn blocks(text: &str) -> Vec<String> {
    text.split("```\n").skip(1).step_by(2).map(str::to_string).collect()
}

/// What the tool prints of a stored sketch.
fn printed(name: &str) -> String {
    let file = format!("docs/sketches/{name}");
    let schedule = notation::read(&read(&format!("{file}.sketch"))).expect("a stored sketch is one");
    let verdict = lines::verdict(&play::play(&schedule).expect("a stored sketch can be played"));
    format!("{file}.sketch\n{verdict}  wrote {file}.txt\n  wrote {file}.svg\n")
}

/// Whether a block is this sketch, whole lines of what is told of it, or what is printed.
fn is_of(block: &str, name: &str) -> bool {
    let told = read(&format!("docs/sketches/{name}.txt"));
    block == read(&format!("docs/sketches/{name}.sketch")) || told.contains(&format!("\n{block}")) || block == printed(name)
}

#[test]
fn every_block_of_the_examples_is_a_stored_sketch_or_what_is_said_of_one() {
    let (names, blocks) = (stored(), blocks(&examples()));
    assert!(blocks.len() >= 6, "three sketches, and what is said of them");
    for block in blocks {
        assert!(names.iter().any(|name| is_of(&block, name)), "nowhere stored:\n{block}");
    }
}

#[test]
fn three_sketches_stand_there_whole() {
    let blocks = blocks(&examples());
    for name in ["first", "two-stories", "without-delivery"] {
        assert!(blocks.contains(&read(&format!("docs/sketches/{name}.sketch"))), "{name}");
    }
}

#[test]
fn every_stored_sketch_is_listed() {
    let examples = examples();
    for name in stored() {
        assert!(examples.contains(&format!("| [{name}](sketches/{name}.svg) |")), "{name}");
    }
}

#[test]
fn the_sample_sketch_is_the_sample_roll() {
    let schedule = notation::read(&read("docs/sketches/sample.sketch")).expect("a stored sketch is one");
    let story = play::play(&schedule).expect("a stored sketch can be played");
    let bench = &story.runs[0].benches[0];
    let roll = fs::read(top().join("crates/roll/stdin")).expect("the sample is stored");
    assert_eq!((&bench.roll, &bench.text), (&roll, &read("crates/roll/stdout")));
}
