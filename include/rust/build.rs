//! Links the proved library that `rt lib` writes in crates/calls, or a copy of it in another folder.

use std::path::Path;

/// Names the folder of the copy.
const FOLDER: &str = "CALLS_FOLDER";

fn main() {
    let written = concat!(env!("CARGO_MANIFEST_DIR"), "/../../crates/calls/out");
    let folder = std::env::var(FOLDER).unwrap_or_else(|_| written.into());
    let library = format!("{folder}/libcalls.a");
    println!("cargo::rerun-if-env-changed={FOLDER}");
    println!("cargo::rerun-if-changed={library}");
    if !Path::new(&library).exists() {
        println!("cargo::error=the proved library is not built: run 'rt lib' in crates/calls first");
        return;
    }
    println!("cargo::rustc-link-search=native={folder}");
    println!("cargo::rustc-link-lib=static=calls");
}
