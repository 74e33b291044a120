//! The promises of the repository, and what the command `promises` prints of them.

use std::process::{Command, Output};

use host::promises::{run, side, Changes};
use host::testing::belief::source::{here, Files};
use host::testing::files::repository;

/// The changes from other files to those that are here.
fn since(older: Files) -> Changes {
    Changes::of(side(&older).0, &side(&here()).0)
}

/// The files with a text replaced.
fn replaced(from: &str, to: &str) -> Files {
    let files = here().into_iter();
    let files: Files = files
        .map(|(path, text)| (path, text.replace(from, to)))
        .collect();
    assert_ne!(files, here(), "no {from}");
    files
}

fn listed() -> String {
    run(&[]).expect("a list")
}

#[test]
fn all_stay_against_themselves() {
    let count = listed().lines().count();
    let changes = since(here());
    assert!(count > 300, "{count} promises");
    assert_eq!(changes.stayed.len(), count, "{changes:?}");
    assert!(changes.gone.is_empty(), "{changes:?}");
}

#[test]
fn a_crate_with_another_name() {
    let path = |path: String| path.replace("crates/hearing_demands/", "crates/demands/");
    let older = replaced("Rattle.hearing_demands.", "Rattle.demands.");
    let older = older.into_iter().map(|(of, text)| (path(of), text));
    let changes = since(older.collect());
    assert_eq!(
        changes.stayed.len(),
        listed().lines().count(),
        "{changes:?}"
    );
    assert!(changes.gone.is_empty(), "{changes:?}");
}

/// A contract of an export, a believed definition, a field of a statement, and a theorem.
#[test]
fn what_moved_is_named() {
    for (from, to, name) in [
        (
            "numbered encoded_parts",
            "numbered kept_parts",
            "polar_encode",
        ),
        ("(min 31 n)", "(min 32 n)", "clip"),
        ("pub demand_3 : Demand3", "pub demand_3 : ⊤", "demand_3"),
    ] {
        let changes = since(replaced(from, to));
        let names: Vec<&str> = changes
            .moved
            .iter()
            .map(|name| name.name.as_str())
            .collect();
        assert_eq!(names, [name]);
    }
}

/// The program itself, with these words.
fn program(words: &[&str]) -> Output {
    let mut program = Command::new(env!("CARGO_BIN_EXE_promises"));
    program.args(words).output().expect("the program")
}

#[test]
fn the_program() {
    let output = program(&[]);
    assert!(output.status.success());
    assert_eq!(String::from_utf8_lossy(&output.stdout), listed());
    for words in [&["HEAD"][..], &["--since"], &["--since", "no-such-commit"]] {
        let output = program(words);
        assert_eq!(output.status.code(), Some(2), "{words:?}");
        assert!(output.stdout.is_empty() && !output.stderr.is_empty());
    }
}

/// In a clone; a folder without its commits has nothing to compare with.
#[test]
fn the_program_since_a_commit() {
    if repository().join(".git").exists() {
        let output = program(&["--since", "HEAD"]);
        let text = String::from_utf8_lossy(&output.stdout);
        let last = text.lines().last().expect("a line");
        assert!(
            last.contains(" stayed, ") && last.ends_with(" gone"),
            "{last}"
        );
    }
}
