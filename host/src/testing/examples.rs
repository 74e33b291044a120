//! Small examples of flip sets, calculated by hand. Their codes have N = 8 and the information
//! indices 3, 5, 6 and 7; a later trial resumes at 5, 6, 7 or 8 and then makes 11, 8, 7 or 0 steps.
//! With half restart it makes 24 steps where its lowest index is 3, and otherwise 12.

use crate::reference::channel::value_byte;
use crate::reference::sets::LIMITS_OF_SETS;

/// A call, and what comes of it.
#[derive(Debug)]
pub struct Example {
    pub description: &'static [u8],
    pub values: [i8; 8],
    pub most_flips: u32,
    pub limit: u32,
    /// The sets of the trials after the first.
    pub sets: &'static [&'static [usize]],
    /// What the last of them accepts.
    pub payload: Option<u8>,
    pub restarted_steps: usize,
}

impl Example {
    pub fn channel(&self) -> Vec<u8> {
        self.values.map(|value| value_byte(value.into())).to_vec()
    }

    /// The trials made.
    pub fn trials(&self) -> usize {
        1 + self.sets.len()
    }

    pub fn half_steps(&self) -> usize {
        let later = self
            .sets
            .iter()
            .map(|set| if set[0] == 3 { 24 } else { 12 });
        24 + later.sum::<usize>()
    }
}

/// The description D, and codes with checks of two and of three bits.
const D: &[u8] = &[9, 0, 1, 0, 3, 1, 1, 0, 0xE8];
const CHECK_7: &[u8] = &[9, 0, 1, 0, 3, 2, 3, 0, 0xE8]; // z^2 + z + 1
const CHECK_B: &[u8] = &[9, 0, 1, 0, 3, 3, 3, 0, 0xE8]; // z^3 + z + 1
const CHECK_D: &[u8] = &[9, 0, 1, 0, 3, 3, 5, 0, 0xE8]; // z^3 + z^2 + 1

/// The largest trial limit where sets may have two indices.
const MOST: u32 = *LIMITS_OF_SETS.end();

/// CHECK_D as kind 4, with start 5.
const CHECK_D_WITH_START: &[u8] = &[11, 0, 4, 0, 3, 3, 5, 0, 5, 0, 0xE8];

pub const EXAMPLES: [Example; 11] = [
    // The vector V of document 01: magnitudes 3, 2, 3, 11 order 5 before 3, but metrics are 3 + 6
    // for [3] and 2 + 12 for [5].
    Example {
        description: D,
        values: [-1, 3, 2, 2, -2, -2, 3, 2],
        most_flips: 1,
        limit: 2,
        sets: &[&[3]],
        payload: Some(0xC0),
        restarted_steps: 24 + 11,
    },
    // A set's own index counts as doubtful: magnitudes are 22 and 17, so [3] has 22, and [5] has
    // 17 + 6.
    Example {
        description: D,
        values: [-3, 6, -9, 5, -3, 5, -9, 8],
        most_flips: 1,
        limit: 5,
        sets: &[&[3]],
        payload: Some(0xC0),
        restarted_steps: 24 + 11,
    },
    // Leaf values of trial 1 are −1, 3, −2, 6, those of [3] are −1, −1, −2, 4. By its own trial
    // [3, 5] has 1 + 1 + 12, and [5] has 3 + 12; by trial 1 the pair would have 1 + 3 + 12. In the
    // trial of [3] index 5 is decided 1 and in trial 1 it was 0: the pair takes 0.
    Example {
        description: CHECK_D,
        values: [1, -1, 0, 0, 0, 1, -1, 2],
        most_flips: 2,
        limit: 12,
        sets: &[&[3], &[3, 5]],
        payload: Some(0x00),
        restarted_steps: 24 + 11 + 11,
    },
    // By the trial of [3], with 1, 7, 0, [3, 6] has 1 + 0 + 18; by trial 1, with 1, −7, [5] has
    // 7 + 12 as well. The pair comes first.
    Example {
        description: CHECK_B,
        values: [-6, -2, -2, 4, 3, -2, 5, 4],
        most_flips: 3,
        limit: 12,
        sets: &[&[3], &[3, 6]],
        payload: Some(0x80),
        restarted_steps: 24 + 11 + 11,
    },
    // The same with single flips: [5] comes after [3].
    Example {
        description: CHECK_B,
        values: [-6, -2, -2, 4, 3, -2, 5, 4],
        most_flips: 1,
        limit: 5,
        sets: &[&[3], &[5]],
        payload: Some(0x00),
        restarted_steps: 24 + 11 + 8,
    },
    // Four single indices and six pairs, and then no set is left. Here too [3, 6] and [5] have the
    // same metric, 20.
    Example {
        description: CHECK_B,
        values: [4, 6, -5, -3, -4, 3, 1, -5],
        most_flips: 2,
        limit: MOST,
        sets: &[
            &[3],
            &[3, 5],
            &[3, 6],
            &[5],
            &[6],
            &[5, 6],
            &[5, 7],
            &[7],
            &[3, 7],
            &[6, 7],
        ],
        payload: None,
        restarted_steps: 24 + 11 + 11 + 11 + 8 + 7 + 8 + 8 + 11 + 7,
    },
    // The same under a check that starts at 5.
    Example {
        description: CHECK_D_WITH_START,
        values: [1, 0, -2, 2, -2, 2, 0, -3],
        most_flips: 2,
        limit: 12,
        sets: &[
            &[3],
            &[3, 5],
            &[5],
            &[3, 6],
            &[5, 6],
            &[6],
            &[3, 7],
            &[6, 7],
            &[5, 7],
            &[7],
        ],
        payload: None,
        restarted_steps: 24 + 11 + 11 + 8 + 11 + 8 + 7 + 11 + 7 + 8,
    },
    // By the trial of [3, 5], with 0, −2, 0, [3, 5, 6] has 0 + 2 + 0 + 18; by trial 1 [6] has 3 + 18.
    Example {
        description: CHECK_B,
        values: [0, 3, 1, -1, -2, -2, 3, -1],
        most_flips: 3,
        limit: 8,
        sets: &[&[3], &[3, 5], &[5], &[3, 5, 6]],
        payload: Some(0x80),
        restarted_steps: 24 + 11 + 11 + 8 + 11,
    },
    // The same with pairs: [3, 6] comes before [5, 6], both with 22.
    Example {
        description: CHECK_B,
        values: [0, 3, 1, -1, -2, -2, 3, -1],
        most_flips: 2,
        limit: MOST,
        sets: &[&[3], &[3, 5], &[5], &[6], &[3, 6], &[5, 6]],
        payload: Some(0x00),
        restarted_steps: 24 + 11 + 11 + 8 + 7 + 11 + 8,
    },
    // A magnitude of 20 counts: in trial 1, with 13 and 20, [5] has 20 + 12, and in the trial of
    // [3], with 13 and 7, [3, 5] has 13 + 7 + 12.
    Example {
        description: CHECK_7,
        values: [-6, -3, -6, -5, -1, -10, -4, -10],
        most_flips: 2,
        limit: 3,
        sets: &[&[3], &[3, 5]],
        payload: Some(0xC0),
        restarted_steps: 24 + 11 + 11,
    },
    // Index 3 lies before the restart, and counts with its magnitude: [3, 5] has 1 + 1 + 12, after
    // [5] with 1 + 12.
    Example {
        description: CHECK_7,
        values: [-1, 0, 0, 0, -1, -2, 0, 1],
        most_flips: 2,
        limit: 12,
        sets: &[&[3], &[5], &[3, 5]],
        payload: Some(0x80),
        restarted_steps: 24 + 11 + 8 + 11,
    },
];
