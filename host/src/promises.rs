//! The texts of all that is promised: the contracts of public operations, the main statements, what their
//! theorems say, and every definition and type that these cite, directly or through others. Which of them
//! moved since a commit.
//!
//! Comments, line breaks, `pub` and `use` lines are no part of a text. If a text stayed and a name in it is
//! now that of another definition, it moved too. Names of libraries are not followed.

mod argument;
mod changes;
mod pairs;
mod plain;
mod report;
mod roots;

pub use changes::{Changes, Side};
pub use roots::{cited, Roots};

use crate::testing::belief::source::{self, Files};
use crate::testing::belief::Crates;
use argument::Wanted;

/// What the command prints for the words after it, or why it cannot.
pub fn run(words: &[String]) -> Result<String, String> {
    let wanted = argument::read(words)?;
    let (now, missing) = side(&source::here());
    if !missing.is_empty() {
        return Err(missing.join("\n"));
    }
    match wanted {
        Wanted::List => Ok(report::list(&now)),
        Wanted::Since(commit) => {
            let (older, _) = side(&source::at(&commit)?);
            Ok(report::changes(&Changes::of(older, &now)))
        }
    }
}

/// The crates in these files, and which roots they have not.
pub fn side(files: &Files) -> (Side, Vec<String>) {
    let crates = Crates::read(files);
    let roots = Roots::find(&crates);
    (Side::new(&crates, roots.names), roots.missing)
}
