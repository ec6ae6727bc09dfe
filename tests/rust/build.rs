//! Finds the static library that `rt lib` makes in crates/export.
use std::path::Path;

fn main() {
    let top = Path::new(env!("CARGO_MANIFEST_DIR")).join("../..");
    let folder = top.join("crates/export/out");
    let archive = folder.join("libexport.a");
    println!("cargo::rerun-if-changed={}", archive.display());
    if !archive.exists() {
        println!("cargo::error={} is not there: run `rt lib` in crates/export first", archive.display());
        return;
    }
    println!("cargo::rustc-link-search=native={}", folder.canonicalize().expect("the folder exists").display());
    println!("cargo::rustc-link-lib=static=export");
}
