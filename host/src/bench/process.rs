//! Rounds in other processes of this program. Where the system puts a program's code and data
//! changes a time by some percent, so the rounds of a row are spread over several processes.

use std::env;
use std::process::{Command, Stdio};

use crate::bench::timing::Times;

/// The word that asks a process for nothing but its times.
pub const TIMES_ONLY: &str = "--times-only";

/// The times of each row and codec, from another process with the same words.
pub fn times(words: &[String]) -> Vec<Vec<Times>> {
    let output = Command::new(env::current_exe().expect("this program"))
        .args(words)
        .arg(TIMES_ONLY)
        .stderr(Stdio::inherit())
        .output()
        .expect("another process");
    assert!(output.status.success(), "{}", output.status);
    let text = String::from_utf8(output.stdout).expect("text");
    text.lines().map(read_row).collect()
}

/// Prints the times of one row as `times` reads them.
pub fn print_row(row: &[Times]) {
    let codecs: Vec<String> = row.iter().map(Times::to_string).collect();
    println!("{}", codecs.join(","));
}

fn read_row(line: &str) -> Vec<Times> {
    let times = line.split(',').map(|times| times.parse());
    times.collect::<Result<_, _>>().expect("numbers")
}
