//! Links the proved library that `rt lib`, in the folder of the crate cervakho, writes.
use std::path::Path;

fn main() {
    let folder = Path::new(env!("CARGO_MANIFEST_DIR")).join("../crates/cervakho/out");
    let library = folder.join("libcervakho.a");
    if !library.exists() {
        panic!(
            "{} is missing: `rt lib` in crates/cervakho proves the library and writes it",
            library.display()
        );
    }
    println!("cargo:rustc-link-search=native={}", folder.display());
    println!("cargo:rustc-link-lib=static=cervakho");
    println!("cargo:rerun-if-changed={}", library.display());
}
