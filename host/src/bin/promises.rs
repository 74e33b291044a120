//! Prints the promises with a hash of each text, or which of them moved since a commit.

use std::process::ExitCode;

use host::{command, promises};

fn main() -> ExitCode {
    command::main(promises::run)
}
