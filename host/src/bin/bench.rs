//! Prints how fast the codec is beside plain C and plain Rust; all of it, or the rows that the words
//! after the command choose.

use std::env;
use std::process::exit;

use host::bench::{run, Choice, USAGE};

fn main() {
    let words: Vec<String> = env::args().skip(1).collect();
    let Some(choice) = Choice::read(&words) else {
        eprintln!("{USAGE}");
        exit(2);
    };
    run(&choice, &words);
}
