//! What single flips gain over one pass.

mod summary;

use std::io::Result;
use std::path::Path;

pub use summary::{nearest, summary};

use crate::simulation::link::Link;
use crate::simulation::output::{write_plotted, Progress};
use crate::simulation::tally::sum;
use crate::simulation::{
    csv, Codes, Flips, Named, Restart, Setting, Tally, SETTINGS, STRIDE, THREADS,
};

/// The points of a curve.
pub const POINTS: usize = 9;

/// How the decoders are called.
#[derive(Clone, Copy, Debug, PartialEq, Eq)]
pub enum Decoder {
    OnePass,
    Full,
    Restarted,
}

pub const DECODERS: [Decoder; 3] = [Decoder::OnePass, Decoder::Full, Decoder::Restarted];

impl Decoder {
    fn way(self) -> (Flips, Restart) {
        match self {
            Decoder::OnePass => (Flips::OnePass, Restart::Full),
            Decoder::Full => (Flips::Single, Restart::Full),
            Decoder::Restarted => (Flips::Single, Restart::Restarted),
        }
    }
}

impl Named for Decoder {
    const ALL: &'static [Decoder] = &DECODERS;

    fn name(self) -> &'static str {
        match self {
            Decoder::OnePass => "one pass",
            Decoder::Full => "full",
            Decoder::Restarted => "restarted",
        }
    }
}

pub type Row = crate::simulation::Row<Decoder>;

/// Simulates all points, writes flipping.csv into a folder, prints a summary, and tells how the plot
/// is drawn.
pub fn run(frames: u64, folder: &Path) -> Result<()> {
    let progress = Progress::start();
    let (mut rows, all) = (Vec::new(), SETTINGS.len() * POINTS);
    progress.print(&format!("  0 of {all} points"));
    for (setting, decibels) in points() {
        rows.extend(at(setting, decibels, frames, THREADS));
        let done = rows.len() / DECODERS.len();
        progress.print(&format!("{done:>3} of {all} points"));
    }
    progress.end_line();
    print!("{}", summary(&rows));
    write_plotted(folder, "flipping", &csv(&rows))
}

fn points() -> impl Iterator<Item = (&'static Setting, f64)> {
    SETTINGS.iter().flat_map(|setting| {
        (0..POINTS).map(move |point| (setting, setting.first + STRIDE * point as f64))
    })
}

/// The three rows of one point.
pub fn at(setting: &Setting, decibels: f64, frames: u64, threads: u64) -> Vec<Row> {
    let link = Link::new(Codes::Gaussian, setting, decibels);
    let tallies = sum(0..frames, threads, |number| frame(&link, number));
    let row = |(decoder, tally)| Row {
        k: setting.k,
        decibels,
        decoder,
        tally,
    };
    DECODERS.into_iter().zip(tallies).map(row).collect()
}

/// Sends a frame and decodes it in each way.
fn frame(link: &Link, number: u64) -> [Tally; 3] {
    let frame = link.frame(number);
    DECODERS.map(|decoder| {
        let (flips, restart) = decoder.way();
        Tally::of(&link.decoded(flips, restart, &frame), &frame.payload)
    })
}
