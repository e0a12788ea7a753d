//! Links the library that `client/build` makes in target/lib of the repository, and refuses one that is older than its sources.

use std::fs;
use std::path::{Path, PathBuf};
use std::process::exit;
use std::time::SystemTime;

/// What the crates are proved and built from. What else rt makes in a crate's folder is no source.
fn parts_of_crates(top: &Path) -> Vec<PathBuf> {
    let crates = fs::read_dir(top.join("crates")).into_iter().flatten().flatten();
    let parts = crates.flat_map(|entry| ["src", "specs", "proofs"].map(|part| entry.path().join(part)));
    parts.filter(|part| part.is_dir()).collect()
}

/// The latest time at which a file, or a file below a folder, was changed.
fn latest(path: &Path) -> Option<SystemTime> {
    let changed = fs::metadata(path).ok()?.modified().ok()?;
    let below = fs::read_dir(path).into_iter().flatten().flatten().filter_map(|entry| latest(&entry.path()));
    Some(below.fold(changed, SystemTime::max))
}

fn main() {
    let top = Path::new(env!("CARGO_MANIFEST_DIR")).join("..");
    let archive = top.join("target/lib/libcaydubeesh.a");
    let files = ["crates.txt", "client/src/words.c", "client/src/words.def", "client/include"].map(|source| top.join(source));
    let sources = [files.to_vec(), parts_of_crates(&top)].concat();
    for path in sources.iter().chain([&archive]) {
        println!("cargo:rerun-if-changed={}", path.display());
    }
    let trouble = match (latest(&archive), sources.iter().filter_map(|source| latest(source)).max()) {
        (None, _) => "there is no",
        (Some(made), Some(changed)) if made < changed => "older than its sources is",
        _ => "",
    };
    if !trouble.is_empty() {
        eprintln!("caydubeesh: {trouble} {}", archive.display());
        eprintln!("caydubeesh: run client/build in the repository; it proves the functions and puts them there");
        exit(1);
    }
    println!("cargo:rustc-link-search=native={}", top.join("target/lib").display());
    println!("cargo:rustc-link-lib=static=caydubeesh");
}
