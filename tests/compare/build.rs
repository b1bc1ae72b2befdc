//! Says where tools/build leaves the library for C, and that a new one is to be linked anew.

fn main() {
    let folder = concat!(env!("CARGO_MANIFEST_DIR"), "/../../target/staticlib");
    println!("cargo::rustc-link-search=native={folder}");
    println!("cargo::rerun-if-changed={folder}/libpanel.a");
}
