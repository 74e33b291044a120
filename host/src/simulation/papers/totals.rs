//! The sums at one point of the papers' tables.

use crate::simulation::papers::cycles::Model;
use crate::simulation::tally::{Outcome, Plus};
use crate::simulation::{Tally, STEPS_OF_A_PASS};

/// The sums over frames. The decoders agree in all but the steps: these and their squares are those of
/// full, half-restarted and restarted decoding.
#[derive(Clone, Copy, Debug, PartialEq, Eq)]
pub struct Totals {
    /// Of full decoding.
    pub tally: Tally,
    /// The frames that took more than one trial.
    pub retried: u64,
    pub steps: [u64; 3],
    pub squares: [u128; 3],
}

impl Totals {
    pub fn of(outcomes: &[Outcome; 3], sent: &[u8]) -> Totals {
        let steps = [0, 1, 2].map(|place| outcomes[place].steps);
        Totals {
            tally: Tally::of(&outcomes[0], sent),
            retried: u64::from(outcomes[0].trials > 1),
            steps,
            squares: steps.map(|steps| u128::from(steps).pow(2)),
        }
    }

    /// The part of all steps of full decoding that a restart saves, by its place in `RESTARTS`.
    pub fn saved(&self, place: usize) -> f64 {
        (self.steps[0] - self.steps[place]) as f64 / self.steps[0] as f64
    }

    /// The same of the steps of later trials.
    pub fn saved_of_later(&self, place: usize) -> f64 {
        let later = self.later_trials() * STEPS_OF_A_PASS;
        (self.steps[0] - self.steps[place]) as f64 / later as f64
    }

    /// The part of later trials that half restart resumes at N/2.
    pub fn right_part(&self) -> f64 {
        2.0 * self.saved_of_later(1)
    }

    /// The same of the variance of a frame's steps.
    pub fn saved_of_variance(&self, place: usize) -> f64 {
        1.0 - self.variance(place) / self.variance(0)
    }

    /// The variance of a frame's steps: (13) of document 000.
    pub fn variance(&self, place: usize) -> f64 {
        let [count, sum] = [self.tally.frames, self.steps[place]].map(u128::from);
        let squares = count * self.squares[place] - sum * sum;
        squares as f64 / (count * (count - 1)) as f64
    }

    fn later_trials(&self) -> u64 {
        self.tally.trials - self.tally.frames
    }
}

impl Plus for u64 {
    fn plus(self, other: u64) -> u64 {
        self + other
    }
}

impl Plus for u128 {
    fn plus(self, other: u128) -> u128 {
        self + other
    }
}

impl Plus for Totals {
    fn plus(self, other: Totals) -> Totals {
        Totals {
            tally: self.tally.plus(other.tally),
            retried: self.retried + other.retried,
            steps: self.steps.plus(other.steps),
            squares: self.squares.plus(other.squares),
        }
    }
}

/// Later trials of restarted decoding: how many, and the steps and cycles that they save.
#[derive(Clone, Copy, Debug, Default, PartialEq, Eq)]
pub struct Sample {
    pub trials: u64,
    pub steps: u64,
    pub cycles: u64,
}

impl Sample {
    /// How a share of cycles is to the share of steps that the same trials save.
    pub fn cycles_to_steps(&self) -> f64 {
        let cycles = self.cycles as f64 / Model::Document001.pass() as f64;
        cycles / (self.steps as f64 / STEPS_OF_A_PASS as f64)
    }
}

impl Plus for Sample {
    fn plus(self, other: Sample) -> Sample {
        Sample {
            trials: self.trials + other.trials,
            steps: self.steps + other.steps,
            cycles: self.cycles + other.cycles,
        }
    }
}
