//! Commands that print a text, or say why they cannot.

use std::env;
use std::process::ExitCode;

/// Runs a command with the words after its name and prints its text. A message in its place goes to
/// standard error, and the status is then 2.
pub fn main(run: fn(&[String]) -> Result<String, String>) -> ExitCode {
    let words: Vec<String> = env::args().skip(1).collect();
    match run(&words) {
        Ok(text) => {
            print!("{text}");
            ExitCode::SUCCESS
        }
        Err(message) => {
            eprintln!("{message}");
            ExitCode::from(2)
        }
    }
}
