//! Simulates what flipping gains, what the papers report of flip sets and restarting, or what
//! combining gains, and writes files of values into docs/, or into another folder. The default size
//! takes some minutes.

use std::io::Result;
use std::path::{Path, PathBuf};

use host::simulation::{combining, flipping, papers, FRAMES};
use host::testing::files::repository;

/// A simulation, from the frames for each point and the folder.
type Run = fn(u64, &Path) -> Result<()>;

fn main() -> Result<()> {
    let words: Vec<String> = std::env::args().skip(1).collect();
    let (run, words) = chosen(&words);
    let frames = words.first().map_or(Some(FRAMES), |word| word.parse().ok());
    let folder = words
        .get(1)
        .map_or(repository().join("docs"), PathBuf::from);
    match frames {
        Some(frames) if frames > 0 && words.len() <= 2 => run(frames, &folder),
        _ => {
            eprintln!("usage: simulate [papers | combining] [frames for each point [folder]]");
            std::process::exit(2);
        }
    }
}

/// The simulation that the first word names, and the words after it.
fn chosen(words: &[String]) -> (Run, &[String]) {
    match words.first().map(String::as_str) {
        Some("papers") => (papers::run, &words[1..]),
        Some("combining") => (combining::run, &words[1..]),
        _ => (flipping::run, words),
    }
}
