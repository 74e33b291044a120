//! What flipping gains.

pub use host::simulation::flipping::Decoder;
use host::simulation::flipping::{at, nearest, summary, Row, DECODERS, POINTS};
use host::simulation::{csv, read_csv, Flips, Setting, Tally, SETTINGS, STEPS_OF_A_PASS};

use crate::{document, plot};

/// The rows of docs/flipping.csv.
pub fn shipped() -> Vec<Row> {
    read_csv(&document("flipping.csv")).expect("rows")
}

fn rows(decibels: f64, frames: u64, threads: u64) -> Vec<Row> {
    let of = |setting: &Setting| at(setting, decibels, frames, threads);
    SETTINGS.iter().flat_map(of).collect()
}

#[test]
fn without_noise_one_pass_decodes_every_frame() {
    for row in rows(20.0, 40, 2) {
        let tally = row.tally;
        assert_eq!((tally.frames, tally.trials), (40, 40), "{row:?}");
        assert_eq!((tally.errors, tally.undetected), (0, 0), "{row:?}");
        assert_eq!(tally.steps, 40 * STEPS_OF_A_PASS, "{row:?}");
    }
}

#[test]
fn under_noise_alone_every_trial_fails() {
    for row in rows(-20.0, 10, 2) {
        let limit = if row.decoder == Decoder::OnePass {
            1
        } else {
            13
        };
        assert_eq!((row.tally.errors, row.tally.undetected), (10, 0), "{row:?}");
        assert_eq!(row.tally.trials, 10 * limit, "{row:?}");
    }
}

#[test]
fn rows_do_not_depend_on_the_number_of_threads() {
    let alone = rows(1.5, 50, 1);
    assert_eq!(rows(1.5, 50, 2), alone);
    assert_eq!(rows(1.5, 50, 7), alone);
    assert_ne!(rows(1.5, 49, 2), alone);
}

/// What both flip decoders owe each other and one pass, on sums.
fn check_point(point: &[Row]) {
    let [once, full, restarted] = [0, 1, 2].map(|decoder| point[decoder].tally);
    assert_eq!(full.frames, once.frames);
    assert_eq!(full.steps, full.trials * STEPS_OF_A_PASS);
    assert_eq!(once.steps, once.frames * STEPS_OF_A_PASS);
    assert!(full.errors <= once.errors && once.undetected <= full.undetected);
    assert!(once.steps <= restarted.steps && restarted.steps <= full.steps);
    let same_but_steps = Tally {
        steps: full.steps,
        ..restarted
    };
    assert_eq!(same_but_steps, full);
}

#[test]
fn both_flip_decoders_agree() {
    rows(1.5, 50, 2).chunks(3).for_each(check_point);
    shipped().chunks(3).for_each(check_point);
}

#[test]
fn the_plot_shows_the_table() {
    let columns = [
        "k",
        "ebn0_db",
        "decoder",
        "frame_error_rate",
        "undetected_error_rate",
        "average_steps",
    ];
    let curves = ["one pass", "full and restarted", "full", "restarted"];
    let of = |setting: &Setting| {
        let k = setting.k;
        curves.map(|curve| format!("k = {k}, {curve}"))
    };
    let curves: Vec<String> = SETTINGS.iter().flat_map(of).collect();
    let setting = format!("T = {}", Flips::Single.limit());
    plot::check("flipping", &columns, &setting, &curves);
}

#[test]
fn documents_agree_with_the_rows() {
    let rows = shipped();
    assert_eq!(csv(&rows), document("flipping.csv"));
    assert!(document("PERFORMANCE.md").contains(&summary(&rows)));
    for setting in &SETTINGS {
        for decoder in DECODERS {
            let of = |row: &&Row| (row.k, row.decoder) == (setting.k, decoder);
            assert_eq!(rows.iter().filter(of).count(), POINTS);
        }
    }
}

/// Where one pass fails about one frame in ten, flipping recovers at least half of them.
#[test]
fn flipping_recovers_half_of_the_frames() {
    let rows = shipped();
    let point = nearest(&rows, 128, Decoder::OnePass, 0.1).expect("a point");
    let [once, full] = [0, 1].map(|decoder| point[decoder].tally);
    let rate = once.error_rate();
    assert!((0.08..0.125).contains(&rate), "{rate}");
    assert!(2 * full.errors <= once.errors, "{point:?}");
}
