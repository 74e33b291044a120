//! What combining gains: a frame is sent up to three times, each time under noise of its own and of
//! the same strength, and the library adds up what was heard and decodes the sums.

mod summary;

use std::array::from_fn;
use std::fs;
use std::io::Result;
use std::path::Path;

pub use summary::{error_summary, gain_summary, loss, ratio, undetected_summary};

use crate::simulation::curve::{curves, points};
use crate::simulation::link::Link;
use crate::simulation::output::Progress;
use crate::simulation::table::Columns;
use crate::simulation::{
    csv, Codes, Flips, Named, Setting, Tally, SETTINGS, STRIDE, THREADS, USUAL,
};

/// The payload size whose code is simulated.
pub const SETTING: &Setting = &SETTINGS[1];

/// The factors of the quantiser's scale that are tried.
const FACTORS: [f32; 3] = [0.5, USUAL, 2.0];

/// The most hearings that are combined.
const HEARINGS: usize = 3;

const DECODERS: [Flips; 2] = [Flips::OnePass, Flips::Single];

/// The Eb/N0 of a hearing in dB at which the curves begin: most frames fail there, even where three
/// hearings are combined.
pub const FIRST: f64 = SETTING.first - 21.0 * STRIDE;

/// How a frame is heard and decoded.
#[derive(Clone, Copy, Debug, PartialEq)]
pub struct Way {
    pub flips: Flips,
    /// The factor of the quantiser's scale.
    pub factor: f32,
    /// How many hearings are combined.
    pub hearings: usize,
}

const COUNT: usize = FACTORS.len() * HEARINGS * DECODERS.len();

/// All ways: by decoder, then factor, then hearings.
pub fn ways() -> [Way; COUNT] {
    from_fn(|place| {
        let (rest, hearings) = (place / HEARINGS, place % HEARINGS + 1);
        Way {
            flips: DECODERS[rest / FACTORS.len()],
            factor: FACTORS[rest % FACTORS.len()],
            hearings,
        }
    })
}

impl Columns for Way {
    const NAMES: &'static [&'static str] = &["decoder", "scale_factor", "hearings"];

    fn values(self) -> Vec<String> {
        vec![
            self.flips.name().to_string(),
            self.factor.to_string(),
            self.hearings.to_string(),
        ]
    }

    fn read(values: &[&str]) -> Option<Way> {
        let [flips, factor, hearings] = values else {
            return None;
        };
        Some(Way {
            flips: Flips::named(flips)?,
            factor: factor.parse().ok()?,
            hearings: hearings.parse().ok()?,
        })
    }
}

pub type Row = crate::simulation::Row<Way>;

/// Simulates all curves, writes combining.csv into a folder, and prints the tables of
/// docs/PERFORMANCE.md.
pub fn run(frames: u64, folder: &Path) -> Result<()> {
    let progress = Progress::start();
    let rows = simulated(frames, THREADS, |decibels| {
        progress.print(&format!("hearings of {decibels} dB"));
    });
    progress.end_line();
    for summary in [error_summary, gain_summary, undetected_summary] {
        println!("{}", summary(&rows));
    }
    fs::write(folder.join("combining.csv"), csv(&rows))
}

/// The curves of all ways, by ratio; `tell` is told each ratio.
pub fn simulated(frames: u64, threads: u64, tell: impl Fn(f64)) -> Vec<Row> {
    curves(ways(), SETTING.k, FIRST, |decibels, chosen| {
        tell(decibels);
        at(decibels, chosen, frames, threads)
    })
}

/// What the chosen ways do at one ratio.
pub fn at(decibels: f64, chosen: [bool; COUNT], frames: u64, threads: u64) -> [Tally; COUNT] {
    let (link, ways) = (Link::new(Codes::Gaussian, SETTING, decibels), ways());
    points(chosen, frames, threads, |lacks, number| {
        decoded(&link, &ways, lacks, number)
    })
}

/// Sends a frame as often as the chosen ways need it, and decodes it in each of them.
fn decoded(link: &Link, ways: &[Way; COUNT], chosen: [bool; COUNT], number: u64) -> [Tally; COUNT] {
    let times = ways
        .iter()
        .zip(chosen)
        .map(|(way, is_chosen)| usize::from(is_chosen) * way.hearings);
    let frame = link.repeated(number, times.max().unwrap_or(0));
    from_fn(|place| match chosen[place] {
        true => {
            let way = &ways[place];
            let outcome = link.combined(way.flips, way.factor, &frame.hearings[..way.hearings]);
            Tally::of(&outcome, &frame.payload)
        }
        false => Tally::default(),
    })
}
