//! The layers that the rows of TRACE.md speak of, and the crates that each is made of.
use crate::markdown::{cells, Block, Kind};
use crate::tree::Tree;

/// A layer: the word that a row names it by, its crates, and the rows that speak of it where they name none.
struct Layer {
    word: &'static str,
    crates: &'static [&'static str],
    rows: &'static [&'static str],
}

const LAYERS: [Layer; 4] = [
    Layer {
        word: "messages and logs",
        crates: &["message"],
        rows: &["M", "F", "G", "D1", "D2", "D3"],
    },
    Layer {
        word: "agreement",
        crates: &["agreement"],
        rows: &["A", "X"],
    },
    Layer {
        word: "bench",
        crates: &["bench", "calls", "lent"],
        rows: &["B", "S1."],
    },
    Layer {
        word: "run",
        crates: &["demand", "run", "cervakho"],
        rows: &["D4", "T", "P"],
    },
];

/// How a row names its layer, in italics: up to the first mark that ends the words on it.
const MARKS: [&str; 2] = ["*Layer: ", "*Layers: "];

/// The crates that a block speaks of: of a row those of the layers that it names, else those of its number; of anything else all.
/// None where a row names no layer that there is.
pub fn crates_of<'a>(block: &Block, tree: &'a Tree) -> Vec<&'a str> {
    let all = tree.crates().into_iter();
    if block.kind != Kind::Row {
        return all.collect();
    }
    let layers = layers_of(&block.text);
    all.filter(|name| layers.iter().any(|layer| layer.crates.contains(name)))
        .collect()
}

/// What a row calls a layer, where there is no such.
pub fn unknown_layer(block: &Block) -> Option<&str> {
    let said = named(&block.text).filter(|_| block.kind == Kind::Row)?;
    layers_of(&block.text).is_empty().then_some(said)
}

fn layers_of(row: &str) -> Vec<&'static Layer> {
    let number = cells(row)[0];
    let group = number.trim_end_matches(|c: char| c.is_ascii_digit());
    let is_meant = |layer: &&Layer| match named(row) {
        Some(said) => said.contains(layer.word),
        None => layer.rows.contains(&number) || layer.rows.contains(&group),
    };
    LAYERS.iter().filter(is_meant).collect()
}

fn named(row: &str) -> Option<&str> {
    let after = MARKS.iter().find_map(|mark| row.split_once(mark))?.1;
    after.split([':', ',', '.', '*', '|']).next()
}
