//! One point of the papers' tables: each frame by the full, the half-restarted and the restarted
//! decoder.

use crate::simulation::link::{Frame, Link};
use crate::simulation::papers::cycles::{resumed_at, saved_by_restart};
use crate::simulation::papers::figures::Place;
use crate::simulation::papers::totals::{Sample, Totals};
use crate::simulation::tally::{sum, Outcome};
use crate::simulation::{Flips, Restart, RESTARTS, STEPS_OF_A_PASS};

/// Of so many frames one is in the sample whose later trials are looked at one by one.
const FRAMES_FOR_A_SAMPLE: u64 = 20;

/// What a decoder did at one ratio under each restart.
#[derive(Clone, Debug, PartialEq)]
pub struct Point {
    pub place: Place,
    pub totals: Totals,
    pub sample: Sample,
}

impl Point {
    /// The part of all cycles that restarting saves in document 001's model: what is saved of the
    /// steps, as the sample relates both.
    pub fn cycles_saved(&self) -> f64 {
        self.totals.saved(2) * self.sample.cycles_to_steps()
    }
}

pub fn at(place: Place, frames: u64, threads: u64) -> Point {
    let link = Link::new(place.codes, place.setting, place.decibels);
    let sampled = frames.div_ceil(FRAMES_FOR_A_SAMPLE);
    Point {
        place,
        totals: sum(0..frames, threads, |number| {
            decoded(&link, place.flips, &link.frame(number))
        }),
        sample: sum(0..sampled, threads, |number| {
            later_trials(&link, place.flips, &link.frame(number))
        }),
    }
}

fn decoded(link: &Link, flips: Flips, frame: &Frame) -> Totals {
    let outcomes = RESTARTS.map(|restart| link.decoded(flips, restart, frame));
    check(&outcomes);
    Totals::of(&outcomes, &frame.payload)
}

/// What the three decoders owe each other on one frame.
fn check([full, half, restarted]: &[Outcome; 3]) {
    for other in [half, restarted] {
        assert_eq!(other.payload, full.payload, "payloads");
        assert_eq!(other.trials, full.trials, "trials");
    }
    assert_eq!(full.steps, full.trials * STEPS_OF_A_PASS, "full");
    assert_eq!((full.steps - half.steps) % (STEPS_OF_A_PASS / 2), 0, "half");
    assert!(restarted.steps <= half.steps && half.steps <= full.steps);
    assert!(restarted.steps >= STEPS_OF_A_PASS, "trial 1");
}

/// The later trials of a frame one by one, each from what one trial more adds to the steps.
fn later_trials(link: &Link, flips: Flips, frame: &Frame) -> Sample {
    let within = |limit| link.decoded_within(limit, flips, Restart::Restarted, frame);
    let all = within(flips.limit());
    let mut before = STEPS_OF_A_PASS;
    let mut sample = Sample::default();
    for trial in 2..=all.trials {
        let after = match trial == all.trials {
            true => all.steps,
            false => within(trial as u32).steps,
        };
        let saved = STEPS_OF_A_PASS - (after - before);
        sample.trials += 1;
        sample.steps += saved;
        sample.cycles += saved_by_restart(resumed_at(saved));
        before = after;
    }
    sample
}
