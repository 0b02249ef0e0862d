//! Links the archive that `library/build` makes, or the one that `MAX35101_ARCHIVE` names.

use std::path::PathBuf;

fn main() {
    let here = PathBuf::from(std::env::var("CARGO_MANIFEST_DIR").expect("cargo sets it"));
    let archive = std::env::var("MAX35101_ARCHIVE").map_or_else(
        |_| here.join("../../target/library/libmax35101.a"),
        PathBuf::from,
    );
    // A warning and no failure: documentation and checks need no archive.
    if !archive.is_file() || !archive.ends_with("libmax35101.a") {
        println!(
            "cargo:warning={} is no archive libmax35101.a: library/build makes it, MAX35101_ARCHIVE names one elsewhere",
            archive.display()
        );
    }
    if let Some(folder) = archive.parent() {
        println!("cargo:rustc-link-search=native={}", folder.display());
    }
    println!("cargo:rustc-link-lib=static=max35101");
    println!("cargo:rerun-if-changed={}", archive.display());
    println!("cargo:rerun-if-env-changed=MAX35101_ARCHIVE");
}
