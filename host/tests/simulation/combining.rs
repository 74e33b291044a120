//! What combining gains.

use host::simulation::combining::{
    at, error_summary, gain_summary, loss, ratio, undetected_summary, ways, Row, Way, FIRST,
    SETTING,
};
use host::simulation::papers::curves::at as without_combining;
use host::simulation::{csv, read_csv, Flips, Tally, USUAL};

use crate::{curve, curves, document};

/// The rows of docs/combining.csv.
fn shipped() -> Vec<Row> {
    read_csv(&document("combining.csv")).expect("rows")
}

/// A few frames, by every way.
fn tallies(decibels: f64, frames: u64, threads: u64) -> Vec<(Way, Tally)> {
    let sums = at(decibels, ways().map(|_| true), frames, threads);
    ways().into_iter().zip(sums).collect()
}

#[test]
fn without_noise_every_way_decodes_every_frame() {
    for (way, tally) in tallies(20.0, 20, 2) {
        assert_eq!((tally.frames, tally.trials), (20, 20), "{way:?}");
        assert_eq!((tally.errors, tally.undetected), (0, 0), "{way:?}");
    }
}

#[test]
fn points_do_not_depend_on_the_number_of_threads() {
    let alone = tallies(-1.375, 30, 1);
    assert_eq!(tallies(-1.375, 30, 2), alone);
    assert_eq!(tallies(-1.375, 30, 7), alone);
    assert_ne!(tallies(-1.375, 29, 2), alone);
}

/// Where hardly a frame is decoded from one hearing, most are from two, and nearly all from three: each
/// has noise of its own.
#[test]
fn a_further_hearing_has_other_noise() {
    for (way, tally) in tallies(-1.375, 60, 2) {
        let errors = [50..=60, 0..=20, 0..=2];
        assert!(errors[way.hearings - 1].contains(&tally.errors), "{way:?}");
    }
}

/// What a way hears does not depend on the other ways that are chosen.
#[test]
fn a_way_alone_counts_as_among_others() {
    for (place, (way, tally)) in tallies(-1.375, 30, 2).into_iter().enumerate() {
        let mut chosen = ways().map(|_| false);
        chosen[place] = true;
        let alone = at(-1.375, chosen, 30, 2);
        assert_eq!(alone[place], tally, "{way:?}");
        assert_eq!(alone.iter().map(|tally| tally.frames).sum::<u64>(), 30);
    }
}

/// One hearing by the usual scale is decoded as a frame that is not combined.
#[test]
fn one_hearing_is_a_frame_like_any_other() {
    let chosen = [true, true, false, false, false];
    let [once, single, ..] = without_combining(SETTING, 1.125, chosen, 60, 2);
    for (way, tally) in tallies(1.125, 60, 2) {
        if (way.factor, way.hearings) == (USUAL, 1) {
            let is_once = way.flips == Flips::OnePass;
            assert_eq!(tally, if is_once { once } else { single }, "{way:?}");
        }
    }
}

/// The same in the results: both simulations have sent the same frames.
#[test]
fn one_hearing_has_the_curves_of_flips() {
    let (rows, mut same) = (shipped(), 0);
    for other in curves::shipped() {
        let way = Way {
            flips: other.decoder,
            factor: USUAL,
            hearings: 1,
        };
        let is_of =
            |row: &&Row| (row.k, row.decibels, row.decoder) == (other.k, other.decibels, way);
        if let Some(row) = rows.iter().find(is_of) {
            assert_eq!(row.tally, other.tally, "{row:?}");
            same += 1;
        }
    }
    assert!(same > 15, "{same}");
}

#[test]
fn documents_agree_with_the_rows() {
    let rows = shipped();
    assert_eq!(csv(&rows), document("combining.csv"));
    let text = document("PERFORMANCE.md");
    for summary in [error_summary, gain_summary, undetected_summary] {
        let summary = summary(&rows);
        assert!(text.contains(&summary), "{summary}");
    }
}

#[test]
fn there_is_a_curve_of_each_way() {
    let rows = shipped();
    let is_named = |row: &Row| row.k == SETTING.k && ways().contains(&row.decoder);
    assert!(rows.iter().all(is_named));
    for way in ways() {
        let of_way = rows.iter().filter(|row| row.decoder == way);
        let curve: Vec<&Row> = of_way.collect();
        curve::check(&curve);
        assert_eq!(curve[0].decibels, FIRST, "{way:?}");
        assert!(curve[0].tally.error_rate() > 0.5, "{way:?}");
    }
}

/// At each ratio a further hearing fails no more often.
#[test]
fn curves_are_ordered_by_the_number_of_hearings() {
    let rows = shipped();
    for row in rows.iter().filter(|row| row.decoder.hearings > 1) {
        let way = Way {
            hearings: row.decoder.hearings - 1,
            ..row.decoder
        };
        let is_fewer = |other: &&Row| (other.decibels, other.decoder) == (row.decibels, way);
        let fewer = rows.iter().find(is_fewer).expect("a point");
        let rates = [row, fewer].map(|row| row.tally.error_rate());
        assert!(rates[0] <= rates[1], "{row:?}");
    }
}

/// By the usual scale two and three hearings gain what exact sums would, but for some hundredths of a
/// dB, and none of the other scales needs less by more than that.
#[test]
fn the_usual_scale_is_as_good_as_any() {
    let rows = shipped();
    for way in ways() {
        let usual = Way {
            factor: USUAL,
            ..way
        };
        let lost = loss(&rows, usual).expect("a loss");
        assert!(lost.abs() < 0.03, "{usual:?} {lost}");
        let [here, other] = [usual, way].map(|way| ratio(&rows, way).expect("a ratio"));
        assert!(here < other + 0.02, "{way:?} {here} {other}");
    }
}
