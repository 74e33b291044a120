//! Flip sets, full, with half restart and restarted: document 02, requests 2.2 and 2.4; document 000,
//! section II-D, with the metric of (6) and (8) in quarter units.

use std::collections::BTreeSet;
use std::ops::RangeInclusive;

use crate::reference::description::{information_indices, is_information, Code};
use crate::reference::flip::Accepted;
use crate::reference::frame::Frame;
use crate::reference::packing::{pack, packed_length};
use crate::reference::refusal::Refusal;
use crate::reference::restart::Restart;

/// How many indices a set may have at most, w.
pub const MOST_FLIPS: RangeInclusive<u32> = 1..=3;

/// The trial limits where w is above 1.
pub const LIMITS_OF_SETS: RangeInclusive<u32> = 1..=512;

/// An information index whose magnitude is at most `DOUBTFUL` adds `PENALTY` to the metric of each
/// set that reaches as far.
const DOUBTFUL: i64 = 20;
const PENALTY: i64 = 6;

/// The sets of the trials made for a frame, in their order; that of trial 1 is empty.
pub fn sets_tried(frame: &Frame, most_flips: u32, limit: u32) -> Vec<Vec<usize>> {
    run(frame, most_flips, limit, Restart::AfterFlip).sets
}

/// The trial limits that 14 allows under w.
pub fn limits(code: &Code, most_flips: u32) -> RangeInclusive<u32> {
    match most_flips {
        1 => 1..=code.information() as u32 + 1,
        _ => LIMITS_OF_SETS,
    }
}

/// The sum of a set's magnitudes, and 6 for each information index up to and including its largest
/// whose magnitude is at most 20.
fn metric(leaves: &[i64], doubtful: &[i64], set: &[usize]) -> i64 {
    let largest = *set.last().expect("an index");
    let sum: i64 = set.iter().map(|&index| leaves[index].abs()).sum();
    sum + PENALTY * doubtful[largest]
}

/// Of each index, how many information indices up to and including it have a magnitude of at most
/// 20.
fn doubtful(mask: &[u8], leaves: &[i64]) -> Vec<i64> {
    let is_doubtful = |index| is_information(mask, index) && leaves[index].abs() <= DOUBTFUL;
    let count = |sum: &mut i64, index| {
        *sum += i64::from(is_doubtful(index));
        Some(*sum)
    };
    (0..leaves.len()).scan(0, count).collect()
}

/// A set with its metric. Tuples and lists compare as the order of sets wants it: by metric, then
/// by the indices from the first on.
type Candidate = (i64, Vec<usize>);

/// The sets with one information index more, above all others, and their metrics in the trial of
/// the set given. Trial 1's are the single indices.
fn candidates(mask: &[u8], leaves: &[i64], set: &[usize]) -> Vec<Candidate> {
    let doubtful = doubtful(mask, leaves);
    information_indices(mask)
        .into_iter()
        .filter(|index| set.iter().all(|other| other < index))
        .map(|index| [set, &[index]].concat())
        .map(|longer| (metric(leaves, &doubtful, &longer), longer))
        .collect()
}

/// Decodes with later trials that resume as `restart` says. Writes the packed payload; a refusal writes
/// nothing.
pub fn decode_sets(
    restart: Restart,
    description: &[u8],
    channel: &[u8],
    most_flips: u32,
    limit: u32,
    output: &mut [u8],
) -> Result<Accepted, Refusal> {
    let frame = Frame::read(description, channel)?;
    if !MOST_FLIPS.contains(&most_flips) {
        return Err(Refusal::Number(26));
    }
    if !limits(&frame.code, most_flips).contains(&limit) {
        return Err(Refusal::Number(14));
    }
    if output.len() != packed_length(frame.code.k) {
        return Err(Refusal::Number(15));
    }
    let run = run(&frame, most_flips, limit, restart);
    let (trials, steps) = (run.sets.len(), run.steps);
    let Some(payload) = run.payload else {
        return Err(Refusal::AllFailed { trials, steps });
    };
    output.copy_from_slice(&pack(&payload));
    Ok(Accepted {
        trial: trials,
        steps,
    })
}

/// The set of each trial made, the steps of all, and the payload bits of the last where it passes.
struct Run {
    sets: Vec<Vec<usize>>,
    steps: usize,
    payload: Option<Vec<u8>>,
}

/// Makes trials until one passes, or T are made, or no untried set is left. No untried set is ever
/// dropped.
fn run(frame: &Frame, most_flips: u32, limit: u32, restart: Restart) -> Run {
    let first = frame.first_trial();
    let mut tried = first.clone();
    let mut untried = BTreeSet::new();
    let mut run = Run {
        sets: vec![vec![]],
        steps: first.steps,
        payload: frame.passing_payload(&first.bits),
    };
    while run.payload.is_none() && run.sets.len() < limit as usize {
        let last = run.sets.last().expect("trial 1's set");
        if last.len() < most_flips as usize {
            untried.extend(candidates(frame.mask, &tried.leaves, last));
        }
        let Some((_, set)) = untried.pop_first() else {
            break;
        };
        tried = restart.trial(frame, &first, &set);
        run.sets.push(set);
        run.steps += tried.steps;
        run.payload = frame.passing_payload(&tried.bits);
    }
    run
}

#[cfg(test)]
mod tests {
    use super::*;
    use crate::reference::description::{describe, mask_of, record};
    use crate::reference::encode::codeword;
    use crate::reference::flip::trials_made;
    use crate::reference::pass::skipped_steps;
    use crate::reference::sizes::LAYERS;
    use crate::testing::examples::EXAMPLES;
    use crate::testing::paper::{D, MASK_OF_D, V};
    use crate::testing::samples;

    /// The largest trial limit where w is above 1.
    const MOST: u32 = *LIMITS_OF_SETS.end();

    #[test]
    fn metrics_by_hand() {
        let leaves = [0, 0, 0, -20, 0, 21, 20, -5];
        let doubtful = doubtful(&MASK_OF_D, &leaves);
        assert_eq!(doubtful, [0, 0, 0, 1, 1, 1, 2, 3]);
        let of = |set: &[usize]| metric(&leaves, &doubtful, set);
        assert_eq!([of(&[3]), of(&[5])], [20 + 6, 21 + 6]);
        assert_eq!([of(&[6]), of(&[7])], [20 + 12, 5 + 18]);
        assert_eq!([of(&[3, 6]), of(&[5, 7])], [20 + 20 + 12, 21 + 5 + 18]);
        assert_eq!(of(&[3, 5, 7]), 20 + 21 + 5 + 18);
    }

    #[test]
    fn candidates_by_hand() {
        let leaves = [0, 0, 0, 1, 0, -30, 2, 3];
        let of = |set: &[usize]| candidates(&MASK_OF_D, &leaves, set);
        let singles = [(7, 3), (36, 5), (14, 6), (21, 7)];
        assert_eq!(
            of(&[]),
            singles.map(|(metric, index)| (metric, vec![index]))
        );
        assert_eq!(of(&[3, 5]), [(45, vec![3, 5, 6]), (52, vec![3, 5, 7])]);
        assert_eq!(of(&[3, 7]), []);
    }

    #[test]
    fn lists_are_compared_from_their_first_entry() {
        let mut sets = vec![
            (9, vec![5]),
            (8, vec![7]),
            (9, vec![3, 6]),
            (9, vec![3, 5, 7]),
        ];
        sets.sort();
        let order = [(8, vec![7]), (9, vec![3, 5, 7]), (9, vec![3, 6])];
        assert_eq!(sets[..3], order);
    }

    #[test]
    fn examples_by_hand() {
        for example in &EXAMPLES {
            let (d, channel, trials) = (example.description, example.channel(), example.trials());
            let (most_flips, limit) = (example.most_flips, example.limit);
            let frame = Frame::read(d, &channel).expect("a frame");
            let tried = sets_tried(&frame, most_flips, limit);
            assert_eq!(tried[1..], *example.sets, "{example:?}");
            let steps = [24 * trials, example.half_steps(), example.restarted_steps];
            for (restart, steps) in Restart::ALL.into_iter().zip(steps) {
                let mut output = [0xEE];
                let answer = decode_sets(restart, d, &channel, most_flips, limit, &mut output);
                assert_eq!(trials_made(&answer), Some((trials, steps)), "{example:?}");
                assert_eq!(answer.is_ok(), example.payload.is_some());
                assert_eq!(output, [example.payload.unwrap_or(0xEE)]);
            }
        }
    }

    /// A code under which most vectors need a set, or have none that passes.
    fn with_a_check_of_three_bits() -> Vec<u8> {
        let mask = samples::mask_with(8, &[3, 5, 6, 7]);
        record(3, 3, 0b011, &mask)
    }

    /// Every vector of small values, w and some T: sets are ascending, of information indices, at
    /// most w, and none is tried twice; the decoders agree, with the steps that each set saves.
    #[test]
    fn the_decoders_agree() {
        let d = with_a_check_of_three_bits();
        let mut sizes = [0; 4];
        for channel in samples::small_vectors() {
            for (most_flips, limit) in [(1, 5), (2, 5), (2, 12), (3, 9), (3, MOST)] {
                let frame = Frame::read(&d, &channel).expect("a frame");
                let sets = sets_tried(&frame, most_flips, limit);
                check_sets(&sets, most_flips);
                let [full, half, restarted] = Restart::ALL.map(|restart| {
                    let mut output = [0xEE];
                    let answer = decode_sets(restart, &d, &channel, most_flips, limit, &mut output);
                    (trials_made(&answer), answer.is_ok(), output)
                });
                let steps = 24 * sets.len();
                assert_eq!(full.0, Some((sets.len(), steps)));
                for (other, saved) in [half, restarted].into_iter().zip(saved(&sets)) {
                    assert_eq!((other.1, other.2), (full.1, full.2));
                    assert_eq!(other.0, Some((sets.len(), steps - saved)));
                }
                sizes[sets.last().expect("trial 1").len()] += usize::from(full.1);
            }
        }
        assert!(sizes.iter().all(|&accepted| accepted >= 100), "{sizes:?}");
    }

    fn check_sets(sets: &[Vec<usize>], most_flips: u32) {
        for (trial, set) in sets.iter().enumerate() {
            assert!(set.is_sorted() && set.iter().all(|index| [3, 5, 6, 7].contains(index)));
            assert!(set.len() <= most_flips as usize);
            assert!(!sets[..trial].contains(set), "{sets:?}");
        }
    }

    /// What half restart and restarting save: 12 steps for each set from 4 on, and the closed sum.
    fn saved(sets: &[Vec<usize>]) -> [usize; 2] {
        let right = sets[1..].iter().filter(|set| set[0] >= 4);
        let q = |set: &Vec<usize>| Restart::AfterFlip.index(&MASK_OF_D, set[0]);
        let skipped = sets[1..].iter().map(|set| skipped_steps(3, q(set)));
        [12 * right.count(), skipped.sum()]
    }

    /// With w = 1 the trials are the information indices by metric, then by index.
    #[test]
    fn single_flips_by_metric() {
        let d = with_a_check_of_three_bits();
        for channel in samples::small_vectors() {
            let frame = Frame::read(&d, &channel).expect("a frame");
            let leaves = frame.first_trial().leaves;
            let doubtful = doubtful(&MASK_OF_D, &leaves);
            let mut order = [3, 5, 6, 7];
            order.sort_by_key(|&index| (metric(&leaves, &doubtful, &[index]), index));
            let tried = sets_tried(&frame, 1, 5);
            let expected = order.map(|index| vec![index]);
            assert_eq!(tried[1..], expected[..tried.len() - 1]);
        }
    }

    /// What is accepted under T is accepted under any larger T.
    #[test]
    fn a_larger_limit_changes_nothing_that_is_accepted() {
        let d = with_a_check_of_three_bits();
        for channel in samples::small_vectors() {
            let frame = Frame::read(&d, &channel).expect("a frame");
            let all = sets_tried(&frame, 3, MOST);
            for limit in 1..=16 {
                let some = sets_tried(&frame, 3, limit);
                assert_eq!(some, all[..all.len().min(limit as usize)]);
            }
        }
    }

    fn refused(d: &[u8], call: (&[u8], u32, u32), before: &[u8], refusal: Refusal) {
        let (channel, most_flips, limit) = call;
        for restart in Restart::ALL {
            let mut output = before.to_vec();
            let answer = decode_sets(restart, d, channel, most_flips, limit, &mut output);
            assert_eq!((answer, &output[..]), (Err(refusal), before));
        }
    }

    #[test]
    fn the_first_fault_decides() {
        let mut bad = D.to_vec();
        bad[8] = 0x80;
        refused(&bad, (&[], 0, 0), &[], Refusal::Number(8));
        refused(&D, (&[0x80; 9], 0, 0), &[], Refusal::Number(12));
        refused(&D, (&[0x80; 8], 0, 0), &[], Refusal::At(13, 0));
        refused(&D, (&V, 0, 0), &[], Refusal::Number(26));
        refused(&D, (&V, 4, 1), &[], Refusal::Number(26));
        refused(&D, (&V, 1, 0), &[], Refusal::Number(14));
        refused(&D, (&V, 1, 1), &[], Refusal::Number(15));
        let failed = Refusal::AllFailed {
            trials: 1,
            steps: 24,
        };
        refused(&D, (&V, 1, 1), &[0xEE], failed);
    }

    #[test]
    fn limits_by_the_most_flips() {
        let refused_14 = |most_flips, limit| {
            refused(&D, (&V, most_flips, limit), &[0xEE], Refusal::Number(14));
        };
        for (most_flips, least_beyond) in [(1, 6), (2, 513), (3, 513)] {
            refused_14(most_flips, 0);
            refused_14(most_flips, least_beyond);
            refused_14(most_flips, u32::MAX);
            let allowed = limits(&describe(&D).expect("a code"), most_flips);
            assert_eq!(allowed, 1..=least_beyond - 1);
        }
    }

    /// The demand's noiseless clause.
    #[test]
    fn right_signs_pass_on_trial_1() {
        samples::for_descriptions(1, LAYERS, 10, |random, d, code| {
            let payload = random.bits(code.k);
            let x = codeword(&code, mask_of(d), &payload);
            let channel = samples::noiseless(random, &x);
            for restart in Restart::ALL {
                let most_flips = random.between(1, 3) as u32;
                let limit = random.between(1, code.information().min(MOST as usize)) as u32;
                let mut output = random.bytes(packed_length(code.k));
                let answer = decode_sets(restart, d, &channel, most_flips, limit, &mut output);
                let steps = code.n << code.n;
                assert_eq!(answer, Ok(Accepted { trial: 1, steps }));
                assert_eq!(output, pack(&payload));
            }
        });
    }
}
