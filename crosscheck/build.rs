//! Links the archive under test. It lies in the folder that DECKLEWREN_ARCHIVE_DIR names;
//! a relative path is taken from this package's folder.

use std::{env, fs};

fn main() {
    println!("cargo::rerun-if-env-changed=DECKLEWREN_ARCHIVE_DIR");
    let folder =
        env::var("DECKLEWREN_ARCHIVE_DIR").unwrap_or_else(|_| "../build".to_string());
    let archive = fs::canonicalize(&folder)
        .map(|folder| folder.join("libdecklewren.a"))
        .unwrap_or_else(|error| panic!("no folder {folder} for the archive: {error}"));
    assert!(archive.is_file(), "no archive {}", archive.display());
    println!("cargo::rerun-if-changed={}", archive.display());
    println!(
        "cargo::rustc-link-search=native={}",
        archive.with_file_name("").display()
    );
    println!("cargo::rustc-link-lib=static=decklewren");
}
