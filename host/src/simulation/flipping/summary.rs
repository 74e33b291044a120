//! The points that docs/PERFORMANCE.md shows.

use crate::simulation::flipping::{Decoder, Row, DECODERS};
use crate::simulation::SETTINGS;

/// What the decoders did at one ratio, in their order.
pub type Point<'a> = &'a [Row];

/// The point of a payload size at which a decoder's error rate is nearest to the one given.
pub fn nearest(rows: &[Row], k: usize, decoder: Decoder, rate: f64) -> Option<Point<'_>> {
    let distance = |point: &Point| {
        let row = point.iter().find(|row| row.decoder == decoder);
        row.map_or(f64::INFINITY, |row| {
            (row.tally.error_rate() / rate).ln().abs()
        })
    };
    rows.chunks(DECODERS.len())
        .filter(|point| point[0].k == k)
        .min_by(|a, b| distance(a).total_cmp(&distance(b)))
}

/// A table in Markdown: for each payload size, where one pass fails about one frame in ten, and
/// where flipping fails about one in a hundred.
pub fn summary(rows: &[Row]) -> String {
    let mut text = String::from(
        "| k | Eb/N0 | errors, one pass | errors, flipping | recovered | undetected, one pass \
         | undetected, flipping | steps, full | steps, restarted | saved | saved of later trials |\n\
         |--:|--:|--:|--:|--:|--:|--:|--:|--:|--:|--:|\n",
    );
    for (decoder, rate) in [(Decoder::OnePass, 0.1), (Decoder::Full, 0.01)] {
        for setting in &SETTINGS {
            let point = nearest(rows, setting.k, decoder, rate);
            text += &point.map_or(String::new(), summary_line);
        }
    }
    text
}

fn summary_line(point: Point) -> String {
    let [once, full, restarted] = [0, 1, 2].map(|decoder| point[decoder].tally);
    let saved = full.steps - restarted.steps;
    let percent = |part: u64, whole: u64| format!("{:.1} %", 100.0 * part as f64 / whole as f64);
    format!(
        "| {} | {:.3} dB | {} | {} | {} | {} | {} | {:.0} | {:.0} | {} | {} |\n",
        point[0].k,
        point[0].decibels,
        percent(once.errors, once.frames),
        percent(full.errors, full.frames),
        percent(once.errors - full.errors, once.errors),
        once.undetected,
        full.undetected,
        full.mean(full.steps),
        restarted.mean(restarted.steps),
        percent(saved, full.steps),
        percent(saved, full.steps - once.steps)
    )
}
