//! Trials after the first, and where they resume: document 01, "Flip decoding, full and restarted";
//! document 001, definition 1; document 02, request 2.4; document 000, section III-A.

use crate::reference::description::information_indices;
use crate::reference::frame::Frame;
use crate::reference::pass::{pass, plain_rules, Pass, Rule};

/// Where a trial resumes.
#[derive(Clone, Copy, Debug, PartialEq, Eq)]
pub enum Restart {
    /// At 0: full decoding.
    Full,
    /// At N/2 where the lowest flipped index is N/2 or above, otherwise at 0: half restart.
    Half,
    /// At the first information index above the lowest flipped one, or at N: restarted decoding.
    AfterFlip,
}

impl Restart {
    /// Those that make more steps first.
    pub const ALL: [Restart; 3] = [Restart::Full, Restart::Half, Restart::AfterFlip];

    /// The index at which a trial resumes whose lowest flipped index is given.
    pub fn index(self, mask: &[u8], lowest: usize) -> usize {
        let size = 8 * mask.len();
        let is_right = lowest >= size / 2;
        match self {
            Restart::Half if is_right => size / 2,
            Restart::Full | Restart::Half => 0,
            Restart::AfterFlip => information_indices(mask)
                .into_iter()
                .find(|&index| index > lowest)
                .unwrap_or(size),
        }
    }

    /// A trial with the opposite decision at each index of a set, the usual one elsewhere. Before the
    /// index at which it resumes bits are forced, and leaf values are trial 1's.
    pub fn trial(self, frame: &Frame, first: &Pass, set: &[usize]) -> Pass {
        let prefix = self.prefix(frame.mask, first, set[0]);
        let resumed = pass(&frame.values, &prefix, &rules(frame.mask, set));
        let before = &first.leaves[..prefix.len()];
        Pass {
            leaves: [before, &resumed.leaves].concat(),
            ..resumed
        }
    }

    /// The bits before the index at which a trial resumes: trial 1's below the lowest flipped index,
    /// its opposite there, then frozen zeros.
    fn prefix(self, mask: &[u8], first: &Pass, lowest: usize) -> Vec<u8> {
        let mut bits = first.bits[..lowest].to_vec();
        bits.push(1 - first.bits[lowest]);
        bits.resize(self.index(mask, lowest), 0);
        bits
    }
}

/// The opposite decision at each index of the set, the usual decision elsewhere.
fn rules(mask: &[u8], set: &[usize]) -> Vec<Rule> {
    let mut rules = plain_rules(mask);
    for &index in set {
        rules[index] = Rule::Opposite;
    }
    rules
}

#[cfg(test)]
mod tests {
    use super::*;
    use crate::reference::description::record;
    use crate::reference::transform::transform;
    use crate::testing::paper::{D, MASK_OF_D, V};
    use crate::testing::random::Random;
    use crate::testing::samples;

    #[test]
    fn the_next_information_index() {
        let of = |mask: &[u8], lowest| Restart::AfterFlip.index(mask, lowest);
        let restarts = [3, 5, 6, 7].map(|flipped| of(&MASK_OF_D, flipped));
        assert_eq!(restarts, [5, 6, 7, 8]);
        // Document 001: a flip at 9 restarts at 11.
        assert_eq!(of(&[0xC0, 0xFA], 9), 11);
    }

    #[test]
    fn the_middle() {
        let of = |mask: &[u8], lowest| Restart::Half.index(mask, lowest);
        assert_eq!(
            [0, 2, 3, 4, 5, 7].map(|flipped| of(&[0xFF], flipped)),
            [0, 0, 0, 4, 4, 4]
        );
        // Frozen indices do not matter.
        assert_eq!(
            [7, 8, 9].map(|flipped| of(&[0x80, 0x03], flipped)),
            [0, 8, 8]
        );
    }

    /// Trial 1 of V decides 1 at index 5 alone.
    #[test]
    fn prefixes_of_v() {
        let frame = Frame::read(&D, &V).expect("a frame");
        let first = frame.first_trial();
        let prefix = |by: Restart, flipped| by.prefix(frame.mask, &first, flipped);
        assert_eq!(prefix(Restart::AfterFlip, 3), [0, 0, 0, 1, 0]);
        assert_eq!(prefix(Restart::AfterFlip, 5), [0; 6]);
        assert_eq!(prefix(Restart::AfterFlip, 7), [0, 0, 0, 0, 0, 1, 0, 1]);
        for flipped in [3, 5, 6, 7] {
            assert_eq!(prefix(Restart::Full, flipped), []);
        }
        assert_eq!(prefix(Restart::Half, 3), []);
        assert_eq!(prefix(Restart::Half, 7), [0; 4]);
    }

    /// Right signs, so that trial 1 decides u.
    #[test]
    fn trial_1_before_the_middle() {
        let u = [0, 1, 1, 0, 1, 0, 1, 1];
        let d = record(3, 1, 1, &[true; 8]);
        let channel = samples::noiseless(&mut Random::new(1), &transform(&u));
        let frame = Frame::read(&d, &channel).expect("a frame");
        let first = frame.first_trial();
        for flipped in 4..8 {
            let prefix = Restart::Half.prefix(frame.mask, &first, flipped);
            assert_eq!(prefix, [0, 1, 1, 0]);
        }
    }

    /// A trial is the same wherever it resumes: its bits, its leaf values at information indices, and
    /// at all indices where the bits before are trial 1's.
    #[test]
    fn the_same_trial_from_each_index() {
        samples::for_descriptions(2, 3..=7, 40, |random, d, code| {
            let channel = samples::channel(random, code.size(), 31);
            let frame = Frame::read(d, &channel).expect("a frame");
            let first = frame.first_trial();
            let mut set = information_indices(frame.mask);
            while set.len() > 3 || set.len() > 1 && random.bit() {
                set.remove(random.below(set.len()));
            }
            let trials = Restart::ALL.map(|restart| restart.trial(&frame, &first, &set));
            let [full, half, restarted] = trials;
            assert_eq!((&full.bits, &full.leaves), (&half.bits, &half.leaves));
            assert_eq!(full.bits, restarted.bits);
            for index in information_indices(frame.mask) {
                assert_eq!(full.leaves[index], restarted.leaves[index]);
            }
        });
    }
}
