//! The repository's files.

use std::fs;
use std::path::{Path, PathBuf};

/// The folder of the repository.
pub fn repository() -> PathBuf {
    Path::new(env!("CARGO_MANIFEST_DIR")).join("..")
}

/// The text of a file, by its path from the repository's folder.
pub fn text(path: &str) -> String {
    fs::read_to_string(repository().join(path)).unwrap_or_else(|_| panic!("no {path}"))
}

/// The folder in which `rt` puts what it makes of a crate.
const MADE: &str = "out";

/// The paths of all files below a folder, from the repository's folder, in order, but for what `rt` has
/// made.
pub fn below(folder: &str) -> Vec<String> {
    let mut paths = Vec::new();
    for entry in fs::read_dir(repository().join(folder)).unwrap_or_else(|_| panic!("no {folder}")) {
        let entry = entry.expect("an entry");
        let path = format!("{folder}/{}", entry.file_name().to_string_lossy());
        match entry.path().is_dir() {
            true if entry.file_name() == MADE => {}
            true => paths.extend(below(&path)),
            false => paths.push(path),
        }
    }
    paths.sort();
    paths
}
