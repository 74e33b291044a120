//! Prints from which trial limit on silence, N zero values, is accepted under a code description, and
//! tries other starts of its check.

use std::process::ExitCode;

use host::{command, silence};

fn main() -> ExitCode {
    command::main(silence::run)
}
