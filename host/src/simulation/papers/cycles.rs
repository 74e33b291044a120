//! The papers' model of a decoder in hardware, with 64 processing elements: document 000, section IV,
//! and document 001, section 4.
//!
//! A node of stage s has 2^s values and 2^s sums. Its values take a cycle for each 64 of them. Its
//! sums take one cycle in document 000, and a cycle for each 128 of them in document 001.

use crate::simulation::DEPTH;

const SIZE: u64 = 1 << DEPTH;
const ELEMENTS: u64 = 64;

#[derive(Clone, Copy, Debug)]
pub enum Model {
    Document000,
    Document001,
}

impl Model {
    /// The cycles of the sums of a node.
    fn sums(self, stage: usize) -> u64 {
        match self {
            Model::Document000 => 1,
            Model::Document001 => (1u64 << stage).div_ceil(2 * ELEMENTS),
        }
    }

    /// The cycles of a pass: (9) of document 000, (19) of document 001. The last node of a stage
    /// needs no sums.
    pub fn pass(self) -> u64 {
        let sums = (1..DEPTH).map(|stage| self.sums(stage));
        self.below(SIZE) - sums.sum::<u64>()
    }

    /// The cycles of all nodes that lie below an index as a whole: (26) and (27) of document 001.
    pub fn below(self, index: u64) -> u64 {
        let values = |stage: usize| (index >> stage) * (1u64 << stage).div_ceil(ELEMENTS);
        let sums = |stage: usize| (index >> stage) * self.sums(stage);
        (0..DEPTH).map(values).sum::<u64>() + (1..DEPTH).map(sums).sum::<u64>()
    }

    /// The part of a pass that a trial saves which resumes at N/2. Half restart keeps the sums that
    /// it needs there.
    pub fn half(self) -> f64 {
        self.below(SIZE / 2) as f64 / self.pass() as f64
    }
}

/// The cycles that a trial saves which resumes at an index and makes sums anew: (25) to (28) of
/// document 001. A trial that resumes at N has nothing to do.
pub fn saved_by_restart(index: u64) -> u64 {
    let model = Model::Document001;
    if index == SIZE {
        return model.pass();
    }
    let anew = |stage: usize| (index >> stage & 1) * model.sums(stage) * stage as u64;
    model.below(index) - (1..DEPTH).map(anew).sum::<u64>()
}

/// The steps that a trial saves which resumes at an index: the values of all nodes below it.
fn steps_below(index: u64) -> u64 {
    let steps = |stage: usize| index >> stage << stage;
    (0..DEPTH).map(steps).sum()
}

/// The index at which a trial has resumed that saves so many steps.
pub fn resumed_at(saved: u64) -> u64 {
    let indices: Vec<u64> = (0..=SIZE).collect();
    let place = indices.partition_point(|&index| steps_below(index) < saved);
    assert_eq!(steps_below(place as u64), saved, "steps of a restart");
    place as u64
}

#[cfg(test)]
mod tests {
    use super::*;
    use crate::simulation::STEPS_OF_A_PASS;

    /// The closed forms (9) of document 000 and (20) of document 001.
    #[test]
    fn cycles_of_a_pass() {
        let values = 2 * SIZE + SIZE / ELEMENTS * (SIZE / (4 * ELEMENTS)).ilog2() as u64;
        let sums = SIZE - DEPTH as u64 - 1;
        assert_eq!((values, sums), (2080, 1013));
        assert_eq!(Model::Document000.pass(), values + sums);
        assert_eq!(Model::Document001.pass(), values + 1019);
    }

    #[test]
    fn a_half_is_half_in_cycles_too() {
        assert_eq!(Model::Document000.below(SIZE / 2), 1551);
        assert_eq!(Model::Document001.below(SIZE / 2), 1556);
        assert_eq!(2 * steps_below(SIZE / 2), STEPS_OF_A_PASS);
        for model in [Model::Document000, Model::Document001] {
            assert!((model.half() - 0.5).abs() < 0.0022, "{}", model.half());
        }
    }

    #[test]
    fn steps_tell_the_index() {
        for index in 0..=SIZE {
            assert_eq!(resumed_at(steps_below(index)), index);
        }
        assert_eq!(steps_below(SIZE), STEPS_OF_A_PASS);
    }

    /// By one index, a share of cycles is at most one point smaller and eight points larger than
    /// that of steps.
    #[test]
    fn cycles_and_steps_of_one_restart() {
        let pass = Model::Document001.pass() as f64;
        for index in 0..=SIZE {
            let cycles = saved_by_restart(index) as f64 / pass;
            let steps = steps_below(index) as f64 / STEPS_OF_A_PASS as f64;
            assert!((-0.01..0.08).contains(&(cycles - steps)), "{index}");
        }
    }
}
