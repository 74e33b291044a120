//! What must be believed stands apart: no public promise and no main theorem cites a definition of
//! a `Claims.antt` or a `Clauses.antt`. Each request has few lines of it, and README.md gives their
//! numbers.

use host::promises::{cited, Roots};
use host::testing::belief::source::here;
use host::testing::belief::{Cited, Crates};
use host::testing::files::text;

fn crates() -> Crates {
    Crates::read(&here())
}

/// All that promises and main theorems cite, and what is wrong with it.
fn all_cited(crates: &Crates) -> Cited {
    let roots = Roots::find(crates);
    let mut cited = cited(crates, &roots.names);
    cited.faults.extend(roots.missing);
    cited
}

#[test]
fn promises_cite_only_what_is_to_be_believed() {
    let faults = all_cited(&crates()).faults;
    assert!(faults.is_empty(), "\n{}\n", faults.join("\n"));
}

/// Not wrong, but more to read: definitions that promises and main theorems do without.
#[test]
fn definitions_that_no_promise_needs() {
    let crates = crates();
    for name in crates.others(&all_cited(&crates).names) {
        println!("no promise needs {name}");
    }
}

/// Each file names its request, and no request has more lines than it may.
#[test]
fn each_request_has_few_lines() {
    let requests = crates().requests();
    println!("{requests}");
    let faults = requests.faults();
    assert!(faults.is_empty(), "\n{}\n", faults.join("\n"));
}

#[test]
fn the_readme_gives_the_number_of_lines() {
    let readme = text("README.md");
    let words: Vec<&str> = readme.split_whitespace().collect();
    let crates = crates();
    let sentence = format!(
        "What must be believed is {} lines of definitions",
        crates.lines()
    );
    assert!(words.join(" ").contains(&sentence), "no `{sentence}`");
    let table = crates.requests().to_string();
    assert!(readme.contains(&table), "no table\n{table}");
}
