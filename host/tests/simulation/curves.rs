//! Frame errors of one pass, single flips and flip sets.

use host::simulation::papers::curves::{at, of};
use host::simulation::papers::gain_summary;
use host::simulation::{csv, read_csv, Flips, Named, Row, BLOCK, ENOUGH_ERRORS, SETTINGS};

use crate::{curve, document, flipping, plot};

/// The rows of docs/sets.csv.
pub fn shipped() -> Vec<Row<Flips>> {
    read_csv(&document("sets.csv")).expect("rows")
}

#[test]
fn curves_do_not_depend_on_the_number_of_threads() {
    let simulated = |threads| of(&SETTINGS[0], 60, threads, |_| ());
    assert_eq!(simulated(3), simulated(1));
}

/// Of frames under noise alone a decoder takes a block, and one that is not chosen takes none.
#[test]
fn a_point_ends_with_enough_errors() {
    let chosen = [true, true, false, false, false];
    let tallies = at(&SETTINGS[0], -20.0, chosen, 5 * BLOCK, 2);
    let frames = tallies.map(|tally| tally.frames);
    assert_eq!(frames, [ENOUGH_ERRORS, ENOUGH_ERRORS, 0, 0, 0]);
}

#[test]
fn documents_agree_with_the_curves() {
    let rows = shipped();
    assert_eq!(csv(&rows), document("sets.csv"));
    let summary = gain_summary(&rows);
    assert!(document("PERFORMANCE.md").contains(&summary), "{summary}");
    for setting in &SETTINGS {
        for &decoder in Flips::ALL {
            let is_of = |row: &&Row<Flips>| (row.k, row.decoder) == (setting.k, decoder);
            curve::check(&rows.iter().filter(is_of).collect::<Vec<_>>());
        }
    }
}

/// Where both simulations have sent the same frames, they have the same errors.
#[test]
fn single_flips_are_those_of_the_other_simulation() {
    let decoders = [
        (Flips::OnePass, flipping::Decoder::OnePass),
        (Flips::Single, flipping::Decoder::Restarted),
    ];
    let (rows, others) = (shipped(), flipping::shipped());
    let mut same = 0;
    for (flips, decoder) in decoders {
        for row in rows.iter().filter(|row| row.decoder == flips) {
            let other = others.iter().find(|other| {
                (other.k, other.decibels, other.decoder) == (row.k, row.decibels, decoder)
                    && other.tally.frames == row.tally.frames
            });
            if let Some(other) = other {
                assert_eq!(other.tally, row.tally, "{row:?}");
                same += 1;
            }
        }
    }
    assert!(same > 10, "{same}");
}

#[test]
fn the_plot_shows_the_curves() {
    let columns = ["k", "ebn0_db", "decoder", "frame_error_rate"];
    let name = |flips: &Flips| format!("{}, T = {}", flips.name(), flips.limit());
    let mut curves: Vec<String> = Flips::ALL.iter().map(name).collect();
    curves.extend(SETTINGS.iter().map(|setting| format!("k = {}", setting.k)));
    plot::check("sets", &columns, "BPSK under Gaussian noise", &curves);
}
