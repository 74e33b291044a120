//! The library's decoders on codewords under Gaussian noise, as in document 000, section V.
//!
//! - `flipping`: what single flips gain
//! - `papers`: what flip sets gain, and what restarting saves beside documents 000 and 001
//! - `combining`: what adding up the hearings of a frame gains

mod codes;
pub mod combining;
mod construction;
mod curve;
mod decoder;
mod evolution;
pub mod flipping;
mod link;
mod markdown;
mod noise;
mod output;
pub mod papers;
mod table;
mod tally;

pub use codes::Codes;
pub use curve::{BLOCK, ENOUGH_ERRORS, LEAST_RATE};
pub use decoder::{Flips, Restart, RESTARTS};
pub use link::{ratio, USUAL};
pub use table::{csv, read_csv, Columns, Named, Row};
pub use tally::Tally;

/// The n of document 000, and its check, z^16 + z^15 + z^2 + 1.
pub const DEPTH: usize = 10;
pub const CHECK: (usize, u16) = (16, 0x8005);

/// The steps of a pass.
pub const STEPS_OF_A_PASS: u64 = (DEPTH as u64) << DEPTH;

/// How many frames are sent at each ratio: the least number of document 000.
pub const FRAMES: u64 = 100_000;

/// The programs' threads; the results do not depend on their number.
pub const THREADS: u64 = 2;

/// A payload size in bits, the Eb/N0 in dB for which its information set is made, as in document
/// 000, and the first Eb/N0 of the curves of single flips.
#[derive(Debug, PartialEq)]
pub struct Setting {
    pub k: usize,
    pub design: f64,
    pub first: f64,
}

pub const SETTINGS: [Setting; 3] = [
    Setting {
        k: 128,
        design: 1.25,
        first: 1.0,
    },
    Setting {
        k: 256,
        design: 1.25,
        first: 0.875,
    },
    Setting {
        k: 512,
        design: 2.5,
        first: 1.375,
    },
];

/// What lies between two points of a curve in dB.
pub const STRIDE: f64 = 0.25;
