//! A reference of document 01 and of what document 02 adds, and what holds the codec to it. A module
//! is for one purpose:
//!
//! - `reference`: the documents, written from the paper, for reading and not for speed
//! - `testing`: inputs, calls into the codec's libraries, and what else the tests need
//! - `bench`: the benchmark, beside plain C and the package `plain`
//! - `simulation`: what flipping gains under noise, and what restarting saves beside the papers
//! - `silence`: whether a code accepts zero values as a frame
//! - `promises`: the texts of contracts and statements, and which of them moved since a commit
//! - `command`: how the programs `silence` and `promises` read their words and end

pub mod bench;
pub mod command;
pub mod promises;
pub mod reference;
pub mod silence;
pub mod simulation;
pub mod testing;
