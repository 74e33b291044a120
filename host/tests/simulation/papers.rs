//! What restarting saves, beside the papers.

use host::simulation::papers::{
    at, csv, dynamic_summary, half_summary, places, read_csv, restarted_summary, Place, Point,
};
use host::simulation::{Codes, Flips, RESTARTS, SETTINGS, STEPS_OF_A_PASS};

use crate::document;

/// The points of docs/restarts.csv.
fn shipped() -> Vec<Point> {
    read_csv(&document("restarts.csv")).expect("points")
}

/// Few frames of each code and decoder.
fn simulated(decibels: f64, frames: u64, threads: u64) -> Vec<Point> {
    let mut seen: Vec<Place> = Vec::new();
    for place in places() {
        let place = Place { decibels, ..place };
        if !seen.contains(&place) {
            seen.push(place);
        }
    }
    let of = |place| at(place, frames, threads);
    seen.into_iter().map(of).collect()
}

#[test]
fn without_noise_every_decoder_takes_one_pass() {
    for point in simulated(20.0, 20, 2) {
        let (totals, steps) = (point.totals, 20 * STEPS_OF_A_PASS);
        assert_eq!((totals.tally.errors, totals.retried), (0, 0), "{point:?}");
        assert_eq!(totals.tally.trials, 20, "{point:?}");
        assert_eq!(totals.steps, [steps; 3], "{point:?}");
        assert_eq!(point.sample.trials, 0, "{point:?}");
    }
}

#[test]
fn points_do_not_depend_on_the_number_of_threads() {
    let alone = simulated(1.5, 30, 1);
    assert_eq!(simulated(1.5, 30, 2), alone);
    assert_eq!(simulated(1.5, 30, 7), alone);
    assert_ne!(simulated(1.5, 29, 2), alone);
}

/// What the three decoders owe each other, on sums; and half restart saves half a pass or nothing.
fn check_point(point: &Point) {
    let totals = &point.totals;
    let ([full, half, restarted], frames) = (totals.steps, totals.tally.frames);
    assert_eq!(full, totals.tally.steps);
    assert_eq!(full, totals.tally.trials * STEPS_OF_A_PASS);
    assert!(frames * STEPS_OF_A_PASS <= restarted && restarted <= half && half <= full);
    let half_of_a_pass = STEPS_OF_A_PASS / 2;
    assert_eq!((full - half) % half_of_a_pass, 0);
    assert!((full - half) / half_of_a_pass <= totals.tally.trials - frames);
    assert!(totals.retried <= totals.tally.trials - frames);
    assert!(totals.tally.errors - totals.tally.undetected <= totals.retried);
    assert!(totals.squares.is_sorted_by(|a, b| a >= b));
    let sample = &point.sample;
    assert!(sample.trials <= totals.tally.trials - frames);
    assert!(sample.steps <= sample.trials * STEPS_OF_A_PASS && sample.steps <= full - restarted);
}

#[test]
fn the_three_decoders_agree() {
    simulated(1.5, 50, 2).iter().for_each(check_point);
    shipped().iter().for_each(check_point);
}

/// Frames one by one, as what one frame more adds to the sums.
#[test]
fn the_variance_is_that_of_the_frames() {
    const COUNT: u64 = 30;
    let place = Place {
        setting: &SETTINGS[0],
        codes: Codes::FiveG,
        flips: Flips::Sets(1),
        decibels: 1.0,
    };
    let up_to = |frames| at(place, frames, 2).totals;
    let sums: Vec<_> = (1..=COUNT).map(up_to).collect();
    for place in 0..RESTARTS.len() {
        let mut before = 0;
        let steps = sums.iter().map(|totals| {
            let of_frame = totals.steps[place] - before;
            before = totals.steps[place];
            of_frame as f64
        });
        let steps: Vec<f64> = steps.collect();
        let mean = steps.iter().sum::<f64>() / COUNT as f64;
        let squares = steps.iter().map(|steps| (steps - mean).powi(2));
        let variance = squares.sum::<f64>() / (COUNT - 1) as f64;
        let ratio = sums[COUNT as usize - 1].variance(place) / variance;
        assert!(variance > 0.0 && (ratio - 1.0).abs() < 1e-9, "{ratio}");
    }
}

#[test]
fn documents_agree_with_the_points() {
    let shipped = shipped();
    assert_eq!(csv(&shipped), document("restarts.csv"));
    let of_shipped: Vec<Place> = shipped.iter().map(|point| point.place).collect();
    assert_eq!(of_shipped, places());
    let text = document("PERFORMANCE.md");
    for (summary, lines) in [
        (half_summary, 14),
        (restarted_summary, 14),
        (dynamic_summary, 5),
    ] as [(fn(&[Point]) -> String, usize); 3]
    {
        let summary = summary(&shipped);
        assert_eq!(summary.lines().count(), lines);
        assert!(text.contains(&summary), "{summary}");
    }
}
