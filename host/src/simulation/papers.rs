//! What flip sets gain, and what restarting saves beside documents 000 and 001.

pub mod curves;
mod cycles;
mod figures;
mod restarts;
mod summary;
mod table;
mod totals;

use std::fs;
use std::io::Result;
use std::path::Path;

pub use figures::{places, Place};
pub use restarts::{at, Point};
pub use summary::{dynamic_summary, gain_summary, half_summary, restarted_summary};
pub use table::{csv, read_csv};
pub use totals::Totals;

use crate::simulation::output::{write_plotted, Progress};
use crate::simulation::{Flips, Row, SETTINGS, THREADS};

/// Simulates the points of the papers' tables and the curves. Writes restarts.csv and sets.csv into a
/// folder, prints the tables of docs/PERFORMANCE.md, and tells how the plot is drawn.
pub fn run(frames: u64, folder: &Path) -> Result<()> {
    let progress = Progress::start();
    let points = simulate_points(frames, &progress);
    let rows = simulate_curves(frames, &progress);
    progress.end_line();
    for summary in [half_summary, restarted_summary, dynamic_summary] {
        println!("{}", summary(&points));
    }
    print!("{}", gain_summary(&rows));
    fs::write(folder.join("restarts.csv"), csv(&points))?;
    write_plotted(folder, "sets", &crate::simulation::csv(&rows))
}

fn simulate_points(frames: u64, progress: &Progress) -> Vec<Point> {
    let places = places();
    let all = places.len();
    let simulate = |(done, place)| {
        progress.print(&format!("{done:>3} of {all} points of the tables"));
        at(place, frames, THREADS)
    };
    places.into_iter().enumerate().map(simulate).collect()
}

fn simulate_curves(frames: u64, progress: &Progress) -> Vec<Row<Flips>> {
    let simulate = |setting| {
        curves::of(setting, frames, THREADS, |decibels| {
            progress.print(&format!("curves of k = {}, {decibels} dB", setting.k));
        })
    };
    SETTINGS.iter().flat_map(simulate).collect()
}
