//! Curves of frame errors against Eb/N0, several at once with the same frames.

use std::array::from_fn;

use crate::simulation::tally::{sum, Plus};
use crate::simulation::{Row, Tally, STRIDE};

/// A curve ends at the first ratio where fewer than one frame in a thousand fails.
pub const LEAST_RATE: f64 = 1e-3;

/// A point ends with the block of frames in which it meets so many errors.
pub const ENOUGH_ERRORS: u64 = 1_000;
pub const BLOCK: u64 = 1_000;

/// The curves of decoders from a first ratio on, by ratio; `at` has the sums of the chosen ones.
pub fn curves<D: Copy, const COUNT: usize>(
    decoders: [D; COUNT],
    k: usize,
    first: f64,
    at: impl Fn(f64, [bool; COUNT]) -> [Tally; COUNT],
) -> Vec<Row<D>> {
    let (mut goes_on, mut decibels) = ([true; COUNT], first);
    let mut rows = Vec::new();
    while goes_on.contains(&true) {
        let tallies = at(decibels, goes_on);
        let row = |place: usize| Row {
            k,
            decibels,
            decoder: decoders[place],
            tally: tallies[place],
        };
        rows.extend((0..COUNT).filter(|&place| goes_on[place]).map(row));
        goes_on = from_fn(|place| goes_on[place] && tallies[place].error_rate() >= LEAST_RATE);
        decibels += STRIDE;
    }
    rows
}

/// The chosen points at one ratio; `of_frame` is told which of them still lack errors.
pub fn points<const COUNT: usize>(
    chosen: [bool; COUNT],
    frames: u64,
    threads: u64,
    of_frame: impl Fn([bool; COUNT], u64) -> [Tally; COUNT] + Sync,
) -> [Tally; COUNT] {
    let mut tallies = [Tally::default(); COUNT];
    for start in (0..frames).step_by(BLOCK as usize) {
        let lacks = from_fn(|place| chosen[place] && tallies[place].errors < ENOUGH_ERRORS);
        if lacks.contains(&true) {
            let block = start..frames.min(start + BLOCK);
            tallies = tallies.plus(sum(block, threads, |number| of_frame(lacks, number)));
        }
    }
    tallies
}

/// The Eb/N0 at which a curve passes one error in a hundred, by a line between two points on the
/// logarithmic axis.
pub fn crossing<D: PartialEq>(rows: &[Row<D>], k: usize, decoder: D) -> Option<f64> {
    let is_of = |row: &&Row<D>| row.k == k && row.decoder == decoder;
    let curve: Vec<&Row<D>> = rows.iter().filter(is_of).collect();
    let height = |row: &Row<D>| (row.tally.error_rate() / 0.01).ln();
    let pair = curve
        .windows(2)
        .find(|pair| height(pair[0]) >= 0.0 && height(pair[1]) < 0.0)?;
    let part = height(pair[0]) / (height(pair[0]) - height(pair[1]));
    Some(pair[0].decibels + part * (pair[1].decibels - pair[0].decibels))
}
