//! The tables of docs/PERFORMANCE.md, beside the papers' figures. Shares are in %.

use crate::simulation::curve::crossing;
use crate::simulation::markdown::{in_decibels, table};
use crate::simulation::papers::cycles::Model;
use crate::simulation::papers::figures::{
    by_size, DYNAMIC, DYNAMIC_HALF, DYNAMIC_RIGHT, HALF, RESTARTED,
};
use crate::simulation::papers::{Place, Point};
use crate::simulation::{Codes, Flips, Named, Row, SETTINGS};

/// Half restart at the points of document 000's table I, each share beside document 000's, and
/// restarted decoding.
pub fn half_summary(points: &[Point]) -> String {
    let heading = "k | decoder | Eb/N0 | frame errors | trials | at N/2 \
                   | half: saved of all, ∆L \
                   | of later trials, ∆L′ | of the variance, ∆V \
                   | restarted: saved of all | of later trials | of the variance";
    let lines = by_size().map(|(size, decoder, flips)| {
        let (decibels, [all, later, variance]) = HALF[size][decoder];
        let point = find(points, size, Codes::Evolved, flips, decibels)?;
        let [errors, trials] = rates(point);
        let [half, restarted] = [1, 2].map(|restart| saved(point, restart));
        let pairs = half.iter().zip([all, later, variance]);
        let right = percent(point.totals.right_part());
        let reported_right = percent(later / 100.0 / Model::Document000.half());
        Some(vec![
            place(point),
            vec![
                errors,
                format!("{trials} / {:.2}", 1.0 / (1.0 - all / later)),
                format!("{right} / {reported_right}"),
            ],
            pairs
                .map(|(here, there)| format!("{here} / {there:.2}"))
                .collect(),
            restarted,
        ])
    });
    table(heading, lines.flatten())
}

/// What a restart saves, by its place in `RESTARTS`: of all, of later trials, of the variance.
fn saved(point: &Point, restart: usize) -> Vec<String> {
    let totals = &point.totals;
    vec![
        percent(totals.saved(restart)),
        percent(totals.saved_of_later(restart)),
        percent(totals.saved_of_variance(restart)),
    ]
}

/// Restarted decoding at the points of document 001's table 5, by both families of codes.
pub fn restarted_summary(points: &[Point]) -> String {
    let heading = "k | decoder | Eb/N0 | frame errors | trials | saved of later trials | of all \
                   | of all, in cycles | 5G: frame errors | trials | saved of later trials | of all \
                   | of all, in cycles | document 001";
    let lines = by_size().map(|(size, decoder, flips)| {
        let (decibels, reported) = RESTARTED[size][decoder];
        let of = |codes| find(points, size, codes, flips, decibels);
        let (point, point_5g) = (of(Codes::Evolved)?, of(Codes::FiveG)?);
        Some(vec![
            place(point),
            rates(point).to_vec(),
            restarted(point),
            rates(point_5g).to_vec(),
            restarted(point_5g),
            vec![format!("{reported:.2}")],
        ])
    });
    table(heading, lines.flatten())
}

/// What restarting saves.
fn restarted(point: &Point) -> Vec<String> {
    vec![
        percent(point.totals.saved_of_later(2)),
        percent(point.totals.saved(2)),
        percent(point.cycles_saved()),
    ]
}

/// Half restart of DSCF-3 at the points of document 001's table 6, by both families of codes.
pub fn dynamic_summary(points: &[Point]) -> String {
    let heading = "k | decoder | Eb/N0 | at N/2 | saved of all | of all, in cycles | 5G: at N/2 \
                   | saved of all | of all, in cycles | document 001: at N/2 | SRM";
    let lines = (0..SETTINGS.len()).map(|size| {
        let decibels = RESTARTED[size][DYNAMIC].0;
        let of = |codes| find(points, size, codes, Flips::Sets(3), decibels);
        let (point, point_5g) = (of(Codes::Evolved)?, of(Codes::FiveG)?);
        let right = DYNAMIC_RIGHT[size].to_string();
        Some(vec![
            place(point),
            half(point),
            half(point_5g),
            vec![right, format!("{:.2}", DYNAMIC_HALF[size])],
        ])
    });
    table(heading, lines.flatten())
}

/// What half restart saves.
fn half(point: &Point) -> Vec<String> {
    let saved = point.totals.saved(1);
    vec![
        percent(point.totals.right_part()),
        percent(saved),
        percent(saved * 2.0 * Model::Document001.half()),
    ]
}

/// The Eb/N0 at which one frame in a hundred fails, and how much less it is than that of one pass.
pub fn gain_summary(rows: &[Row<Flips>]) -> String {
    let names = SETTINGS
        .each_ref()
        .map(|setting| format!("k = {}", setting.k));
    let heading = format!(
        "decoder | T | {} | gain, {}",
        names.join(" | "),
        names.join(" | gain, ")
    );
    let ratios = |flips| {
        SETTINGS
            .each_ref()
            .map(|setting| crossing(rows, setting.k, flips))
    };
    let lines = Flips::ALL.iter().map(|&flips| {
        let (ratios, once) = (ratios(flips), ratios(Flips::OnePass));
        let gains = ratios
            .iter()
            .zip(once)
            .map(|(ratio, once)| Some(once? - (*ratio)?));
        vec![
            vec![flips.name().to_string(), flips.limit().to_string()],
            ratios.into_iter().map(in_decibels).collect(),
            gains.map(in_decibels).collect(),
        ]
    });
    table(&heading, lines)
}

/// The first cells of a line.
fn place(point: &Point) -> Vec<String> {
    let place = &point.place;
    vec![
        place.setting.k.to_string(),
        place.flips.name().to_string(),
        format!("{:.3}", place.decibels),
    ]
}

/// How many frames fail, and how many trials a frame takes.
fn rates(point: &Point) -> [String; 2] {
    let tally = &point.totals.tally;
    [
        format!("{:.2}", 100.0 * tally.error_rate()),
        format!("{:.2}", tally.mean(tally.trials)),
    ]
}

fn find(
    points: &[Point],
    size: usize,
    codes: Codes,
    flips: Flips,
    decibels: f64,
) -> Option<&Point> {
    let wanted = Place {
        setting: &SETTINGS[size],
        codes,
        flips,
        decibels,
    };
    points.iter().find(|point| point.place == wanted)
}

fn percent(part: f64) -> String {
    format!("{:.1}", 100.0 * part)
}
