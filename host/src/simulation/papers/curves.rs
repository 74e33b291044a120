//! Frame errors of one pass, single flips and flip sets, all with the same frames. The restarted
//! decoders make them, which are the fastest; full ones have the same errors.

use std::array::from_fn;

use crate::simulation::curve::{curves, points};
use crate::simulation::link::{Frame, Link};
use crate::simulation::{Codes, Flips, Named, Restart, Row, Setting, Tally, STRIDE};

/// How much lower the curves begin than those of single flips alone.
const LOWER: f64 = 2.0 * STRIDE;

const COUNT: usize = Flips::ALL.len();

/// The curves of a payload size, by ratio; `tell` is told each ratio.
pub fn of(setting: &Setting, frames: u64, threads: u64, tell: impl Fn(f64)) -> Vec<Row<Flips>> {
    let decoders: [Flips; COUNT] = from_fn(|place| Flips::ALL[place]);
    let first = setting.first - LOWER;
    curves(decoders, setting.k, first, |decibels, chosen| {
        tell(decibels);
        at(setting, decibels, chosen, frames, threads)
    })
}

/// What the chosen decoders do at one ratio.
pub fn at(
    setting: &Setting,
    decibels: f64,
    chosen: [bool; COUNT],
    frames: u64,
    threads: u64,
) -> [Tally; COUNT] {
    let link = Link::new(Codes::Gaussian, setting, decibels);
    points(chosen, frames, threads, |lacks, number| {
        decoded(&link, lacks, &link.frame(number))
    })
}

fn decoded(link: &Link, chosen: [bool; COUNT], frame: &Frame) -> [Tally; COUNT] {
    from_fn(|place| match chosen[place] {
        true => {
            let outcome = link.decoded(Flips::ALL[place], Restart::Restarted, frame);
            Tally::of(&outcome, &frame.payload)
        }
        false => Tally::default(),
    })
}
