//! The files of crates, as they are in the folder of the repository or at a commit.

use std::collections::BTreeMap;
use std::process::Command;

use crate::testing::files::{below, repository, text};

/// The texts of files by their paths from the repository's folder, as `crates/bits/src/lib.rt`.
pub type Files = BTreeMap<String, String>;

/// The folders of a crate that have code, definitions and proofs.
const FOLDERS: [(&str, &str); 3] = [("src", ".rt"), ("specs", ".antt"), ("proofs", ".antt")];

/// A path's crate, folder and file without its ending, if it is one that is read. The proofs of
/// functions, which stand in folders of their own, are not.
pub fn parts(path: &str) -> Option<(&str, &str, &str)> {
    let words: Vec<&str> = path.split('/').collect();
    let ["crates", name, folder, file] = words[..] else {
        return None;
    };
    let (_, ending) = FOLDERS.iter().find(|(of, _)| *of == folder)?;
    Some((name, folder, file.strip_suffix(ending)?))
}

/// The files of the repository's folder.
pub fn here() -> Files {
    let paths = below("crates").into_iter();
    let read = paths.filter(|path| parts(path).is_some());
    read.map(|path| (path.clone(), text(&path))).collect()
}

/// The files at a commit, or what git says.
pub fn at(commit: &str) -> Result<Files, String> {
    let names = git(&["ls-tree", "-r", "--name-only", commit, "crates"])?;
    let paths = names.lines().filter(|path| parts(path).is_some());
    let text = |path: &str| git(&["show", &format!("{commit}:{path}")]);
    let files = paths.map(|path| Ok((path.to_string(), text(path)?)));
    files.collect()
}

/// What a command of git prints in the repository's folder.
fn git(words: &[&str]) -> Result<String, String> {
    let mut git = Command::new("git");
    let output = git.current_dir(repository()).args(words).output();
    let output = output.map_err(|error| format!("git: {error}"))?;
    match output.status.success() {
        true => Ok(String::from_utf8_lossy(&output.stdout).into_owned()),
        false => Err(String::from_utf8_lossy(&output.stderr).trim().to_string()),
    }
}

#[cfg(test)]
mod tests {
    use super::*;

    #[test]
    fn paths_that_are_read() {
        let lib = parts("crates/bits/src/lib.rt");
        assert_eq!(lib, Some(("bits", "src", "lib")));
        let mask = parts("crates/bits/proofs/Mask.antt");
        assert_eq!(mask, Some(("bits", "proofs", "Mask")));
        for path in [
            "crates.txt",
            "crates/bits/proofs/read_bit/Proof.antt",
            "crates/bits/must-fail/a.edit",
            "crates/bits/specs/Mask.rt",
            "docs/specs/Mask.antt",
        ] {
            assert_eq!(parts(path), None, "{path}");
        }
    }

    #[test]
    fn the_files_of_the_folder() {
        let files = here();
        assert!(files.contains_key("crates/polar/src/lib.rt"));
        assert!(files.len() > 100);
    }

    #[test]
    fn a_commit_that_is_not_there() {
        assert!(at("no-such-commit").is_err());
    }
}
