//! Functions and contracts that can be read, and comments that say what they are about.

use std::collections::BTreeSet;

use host::testing::belief::source::here;
use host::testing::belief::Crates;
use host::testing::files::{below, text};
use host::testing::words::{comment, functions, is_code};

const MOST_PARAMETERS: usize = 12;
const LONGEST_CONTRACT_LINE: usize = 160;
const LONGEST_BODY: usize = 40;

/// Words that say nothing of what a comment is about.
const EMPTY_WORDS: [&str; 2] = ["The same", "Gives"];

/// A length, and where it is met.
type Measured = (usize, String);

/// The files of crates in a folder of each, by their paths.
fn paths(folder: &str) -> Vec<String> {
    let is_in = |path: &String| path.split('/').nth(2) == Some(folder);
    below("crates").into_iter().filter(is_in).collect()
}

/// The parameters of each function, the characters of each line of a contract, and the lines of each
/// body.
#[derive(Default)]
struct Lengths {
    parameters: Vec<Measured>,
    contract_lines: Vec<Measured>,
    bodies: Vec<Measured>,
}

fn lengths() -> Lengths {
    let mut lengths = Lengths::default();
    for path in paths("src") {
        for function in functions(&text(&path)) {
            let place = format!("{path}: {}", function.name);
            let lines = function.contract.iter();
            let line = |line: &&str| (line.chars().count(), place.clone());
            lengths.contract_lines.extend(lines.map(line));
            lengths.bodies.push((function.body, place.clone()));
            lengths.parameters.push((function.parameters, place));
        }
    }
    lengths
}

/// That nothing is longer, and where it is.
fn at_most(most: usize, what: &str, all: Vec<Measured>) {
    assert!(all.len() > 200, "only {} {what}", all.len());
    let longer = all.iter().filter(|(length, _)| *length > most);
    let lines: Vec<String> = longer
        .map(|(n, at)| format!("{at} has {n} {what}"))
        .collect();
    assert!(
        lines.is_empty(),
        "more than {most}:\n{}\n",
        lines.join("\n")
    );
}

#[test]
fn parameters() {
    at_most(MOST_PARAMETERS, "parameters", lengths().parameters);
}

#[test]
fn lines_of_contracts() {
    let what = "characters in a line of its contract";
    at_most(LONGEST_CONTRACT_LINE, what, lengths().contract_lines);
}

#[test]
fn bodies() {
    at_most(LONGEST_BODY, "lines in its body", lengths().bodies);
}

#[test]
fn comments() {
    let mut found = Vec::new();
    for path in [paths("src"), paths("specs")].concat() {
        for (at, line) in text(&path).lines().enumerate() {
            let is_empty = |said: &&str| EMPTY_WORDS.iter().any(|word| said.starts_with(word));
            let said = comment(line).filter(is_empty);
            found.extend(said.map(|said| format!("{path}:{}: {said}", at + 1)));
        }
    }
    assert!(found.is_empty(), "\n{}\n", found.join("\n"));
}

/// The lines of code, with contracts, of all files in a folder of each crate.
fn lines(folder: &str) -> usize {
    let of = |path: &String| text(path).lines().filter(|line| is_code(line)).count();
    paths(folder).iter().map(of).sum()
}

/// How many crates and must-fail edits there are.
fn crates_and_edits() -> (usize, usize) {
    let paths = below("crates");
    let crates = paths.iter().filter_map(|path| path.split('/').nth(1));
    let edits = paths.iter().filter(|path| path.ends_with(".edit"));
    (crates.collect::<BTreeSet<_>>().len(), edits.count())
}

fn print_longest(what: &str, all: &[Measured]) {
    let (length, place) = all.iter().max().expect("one");
    println!("longest {what}: {length}, {place}");
}

/// `cargo test --release --offline --test words figures -- --nocapture` prints them.
#[test]
fn figures() {
    let lengths = lengths();
    let (crates, edits) = crates_and_edits();
    let (functions, contracts) = (lengths.bodies.len(), lengths.contract_lines.len());
    let (code, proof) = (lines("src") - contracts, lines("proofs"));
    let believed = Crates::read(&here()).lines();
    println!("{crates} crates, {edits} edits, {functions} functions");
    println!("{code} lines of code, {contracts} of contracts");
    println!("{believed} lines to be believed, {proof} of proof");
    print_longest("parameter list", &lengths.parameters);
    print_longest("line of a contract", &lengths.contract_lines);
    print_longest("body", &lengths.bodies);
    assert!(crates > 0 && edits > 0 && contracts > 0);
}
