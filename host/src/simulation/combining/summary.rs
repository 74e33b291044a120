//! The tables of docs/PERFORMANCE.md. A ratio is that of one hearing.

use crate::simulation::combining::{ways, Row, Way, DECODERS, HEARINGS, SETTING};
use crate::simulation::curve::{crossing, LEAST_RATE};
use crate::simulation::markdown::{in_decibels, signed, table};
use crate::simulation::tally::Plus;
use crate::simulation::{Flips, Named, Tally, USUAL};

/// Of so many ratios one is shown.
const EVERY: usize = 4;

/// What the columns of one, two and three hearings are called.
const COLUMNS: &str = "one hearing | two | three";

/// The part of frames that fails at some ratios, in %, by the usual scale.
pub fn error_summary(rows: &[Row]) -> String {
    let columns = DECODERS.map(|flips| format!("{}: {COLUMNS}", flips.name()));
    let heading = format!("Eb/N0 | {}", columns.join(" | "));
    let lines = ratios(rows).skip(EVERY).step_by(EVERY).map(|ratio| {
        let of_usual = ways().into_iter().filter(|way| way.factor == USUAL);
        let cells = of_usual.map(|way| error_cell(rows, ratio, way));
        vec![vec![signed(ratio, 3)], cells.collect()]
    });
    table(&heading, lines)
}

/// The ratios of the longest curve.
fn ratios(rows: &[Row]) -> impl Iterator<Item = f64> + '_ {
    let is_longest = |row: &&Row| row.decoder == usual(Flips::OnePass, 1);
    rows.iter().filter(is_longest).map(|row| row.decibels)
}

/// The part of frames that fails; a curve that has ended lies below the least rate.
fn error_cell(rows: &[Row], ratio: f64, way: Way) -> String {
    let row = rows
        .iter()
        .find(|row| row.decibels == ratio && row.decoder == way);
    match row {
        Some(row) => format!("{:.2}", 100.0 * row.tally.error_rate()),
        None => format!("< {:.1}", 100.0 * LEAST_RATE),
    }
}

/// The ratio at which one frame in a hundred fails, how much less it is than that of one hearing by
/// the usual scale, and what that lacks to the gain of adding without quantiser and clipping.
pub fn gain_summary(rows: &[Row]) -> String {
    let heading = format!(
        "decoder | T | factor | {COLUMNS} | gain, two | gain, three | lost, two | lost, three"
    );
    let ways = ways();
    let lines = ways.chunks(HEARINGS).map(|hearings| {
        let (flips, factor) = (hearings[0].flips, hearings[0].factor);
        let ratios = hearings.iter().map(|&way| ratio(rows, way));
        let gains = hearings[1..].iter().map(|&way| gain(rows, way));
        let losses = hearings[1..].iter().map(|&way| loss(rows, way));
        let numbers = ratios.chain(gains).chain(losses);
        vec![
            vec![flips.name().to_string(), flips.limit().to_string()],
            vec![factor.to_string()],
            numbers.map(in_decibels).collect(),
        ]
    });
    table(&heading, lines)
}

/// The ratio at which one frame in a hundred fails.
pub fn ratio(rows: &[Row], way: Way) -> Option<f64> {
    crossing(rows, SETTING.k, way)
}

/// How much less that is than for one hearing by the usual scale.
pub fn gain(rows: &[Row], way: Way) -> Option<f64> {
    Some(ratio(rows, usual(way.flips, 1))? - ratio(rows, way)?)
}

/// What a gain lacks: exact sums of equally strong hearings have as many times the Eb/N0 of one.
pub fn loss(rows: &[Row], way: Way) -> Option<f64> {
    Some(10.0 * (way.hearings as f64).log10() - gain(rows, way)?)
}

/// The frames of whole curves by the usual scale, how many of them failed, and how many of these
/// were accepted with a wrong payload.
pub fn undetected_summary(rows: &[Row]) -> String {
    let columns = DECODERS.map(|flips| format!("{}: frames | errors | undetected", flips.name()));
    let heading = format!("hearings | {}", columns.join(" | "));
    let lines = (1..=HEARINGS).map(|hearings| {
        let cells = DECODERS.map(|flips| {
            let sums = total(rows, usual(flips, hearings));
            [sums.frames, sums.errors, sums.undetected].map(|sum| sum.to_string())
        });
        vec![vec![hearings.to_string()], cells.concat()]
    });
    table(&heading, lines)
}

/// The sums of a curve.
fn total(rows: &[Row], way: Way) -> Tally {
    let of_way = rows.iter().filter(|row| row.decoder == way);
    of_way.fold(Tally::default(), |sums, row| sums.plus(row.tally))
}

fn usual(flips: Flips, hearings: usize) -> Way {
    Way {
        flips,
        factor: USUAL,
        hearings,
    }
}
