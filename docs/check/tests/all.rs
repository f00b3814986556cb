//! The checks on samples, and on the documents as they are.
mod believed;
mod chart;
mod declarations;
mod documents;
mod opened;
mod paths;
mod reading_names;
mod sentences;
mod trace;

use check::tree::Tree;

/// A file that no `mod` names would have its tests left out, and nobody would see it.
#[test]
fn every_file_of_tests_is_named_in_the_one_that_has_all() {
    let tree = Tree::of_repository().expect("the repository can be read");
    for folder in ["docs/check/tests/", "model/tests/"] {
        let all = tree
            .text(&format!("{folder}all.rs"))
            .unwrap_or_else(|| panic!("{folder}all.rs"));
        let files = tree
            .files()
            .filter_map(|(path, _)| path.strip_prefix(folder)?.strip_suffix(".rs"));
        for name in files.filter(|name| *name != "all" && !name.contains('/')) {
            assert!(all.contains(&format!("\nmod {name};\n")), "{folder}{name}.rs is in no test");
        }
    }
}
