//! What every curve of frame errors has.

use std::fmt::Debug;

use host::simulation::{Row, BLOCK, ENOUGH_ERRORS, FRAMES, LEAST_RATE, STRIDE};

/// A curve goes by one stride, falls where frames are decoded at all, ends at the least rate, and has
/// frames or errors enough at each point.
pub fn check<D: Debug>(curve: &[&Row<D>]) {
    assert!(curve.len() > 4, "{curve:?}");
    assert!(curve
        .windows(2)
        .all(|pair| pair[0].decibels + STRIDE == pair[1].decibels));
    let rates = curve.iter().map(|row| row.tally.error_rate());
    let falling: Vec<f64> = rates.filter(|&rate| rate < 0.99).collect();
    assert!(falling.is_sorted_by(|a, b| a > b), "{falling:?}");
    let (last, others) = curve.split_last().expect("a point");
    assert!(last.tally.error_rate() < LEAST_RATE);
    assert!(others
        .iter()
        .all(|row| row.tally.error_rate() >= LEAST_RATE));
    for row in curve {
        let (frames, errors) = (row.tally.frames, row.tally.errors);
        assert!(frames == FRAMES || errors >= ENOUGH_ERRORS, "{row:?}");
        assert!(
            frames == FRAMES || errors < ENOUGH_ERRORS + BLOCK,
            "{row:?}"
        );
    }
}
