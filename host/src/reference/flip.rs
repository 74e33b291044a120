//! Flip decoding, full, with half restart and restarted: document 01, "Flip decoding, full and
//! restarted"; document 02, request 2.4; document 000, section II-C.

use crate::reference::description::information_indices;
use crate::reference::frame::Frame;
use crate::reference::packing::{pack, packed_length};
use crate::reference::refusal::Refusal;
use crate::reference::restart::Restart;

/// An accepted frame: the number of the trial that passed, and the steps of all trials made.
#[derive(Clone, Copy, Debug, PartialEq, Eq)]
pub struct Accepted {
    pub trial: usize,
    pub steps: usize,
}

/// Information indices by the magnitude of trial 1's leaf value, equal magnitudes by lower index.
pub fn order(mask: &[u8], leaves: &[i64]) -> Vec<usize> {
    let mut order = information_indices(mask);
    order.sort_by_key(|&index| (leaves[index].abs(), index));
    order
}

/// The trials made and their steps; nothing where the first was not made.
pub fn trials_made(answer: &Result<Accepted, Refusal>) -> Option<(usize, usize)> {
    match *answer {
        Ok(Accepted { trial, steps }) => Some((trial, steps)),
        Err(Refusal::AllFailed { trials, steps }) => Some((trials, steps)),
        Err(_) => None,
    }
}

/// Decodes with later trials that resume as `restart` says. Writes the packed payload; a refusal writes
/// nothing.
pub fn decode(
    restart: Restart,
    description: &[u8],
    channel: &[u8],
    limit: u32,
    output: &mut [u8],
) -> Result<Accepted, Refusal> {
    let frame = Frame::read(description, channel)?;
    let limit = limit as usize;
    if !(1..=frame.code.information() + 1).contains(&limit) {
        return Err(Refusal::Number(14));
    }
    if output.len() != packed_length(frame.code.k) {
        return Err(Refusal::Number(15));
    }
    let (accepted, payload) = run(&frame, limit, restart)?;
    output.copy_from_slice(&pack(&payload));
    Ok(accepted)
}

/// Makes trials until one passes; gives its payload bits too.
fn run(frame: &Frame, limit: usize, restart: Restart) -> Result<(Accepted, Vec<u8>), Refusal> {
    let first = frame.first_trial();
    let order = order(frame.mask, &first.leaves);
    let mut steps = 0;
    for trial in 1..=limit {
        let tried = match trial {
            1 => first.clone(),
            _ => restart.trial(frame, &first, &[order[trial - 2]]),
        };
        steps += tried.steps;
        if let Some(payload) = frame.passing_payload(&tried.bits) {
            return Ok((Accepted { trial, steps }, payload));
        }
    }
    Err(Refusal::AllFailed {
        trials: limit,
        steps,
    })
}

#[cfg(test)]
mod tests {
    use super::*;
    use crate::reference::channel::read_channel;
    use crate::reference::description::mask_of;
    use crate::reference::encode::codeword;
    use crate::reference::pass::{pass, plain_rules, skipped_steps};
    use crate::reference::sizes::LAYERS;
    use crate::testing::hex::parse;
    use crate::testing::paper::{D, D_WITH_START, MASK_OF_D, RIGHT, V};
    use crate::testing::samples;

    /// Decodes into a buffer that holds `before`.
    fn decode_under(
        d: &[u8],
        restart: Restart,
        channel: &[u8],
        limit: u32,
        before: &[u8],
    ) -> (Result<Accepted, Refusal>, Vec<u8>) {
        let mut output = before.to_vec();
        let answer = decode(restart, d, channel, limit, &mut output);
        (answer, output)
    }

    fn decode_d(
        restart: Restart,
        channel: &[u8],
        limit: u32,
        before: &[u8],
    ) -> (Result<Accepted, Refusal>, Vec<u8>) {
        decode_under(&D, restart, channel, limit, before)
    }

    fn accepted(trial: usize, steps: usize, payload: u8) -> (Result<Accepted, Refusal>, Vec<u8>) {
        (Ok(Accepted { trial, steps }), vec![payload])
    }

    fn refused(channel: &[u8], limit: u32, before: &[u8], refusal: Refusal) {
        for restart in Restart::ALL {
            let expected = (Err(refusal), before.to_vec());
            assert_eq!(decode_d(restart, channel, limit, before), expected);
        }
    }

    #[test]
    fn rows_of_the_paper() {
        for restart in Restart::ALL {
            let of = |channel: &[u8], limit| decode_d(restart, channel, limit, &[0xEE]);
            assert_eq!(of(&RIGHT, 1), accepted(1, 24, 0xA0));
            assert_eq!(of(&[0; 8], 1), accepted(1, 24, 0x00));
            assert_eq!(of(&[0; 8], 5), accepted(1, 24, 0x00));
        }
        let failed = Refusal::AllFailed {
            trials: 1,
            steps: 24,
        };
        refused(&V, 1, &[0xEE], failed);
        for (restart, steps) in Restart::ALL.into_iter().zip([48, 36, 32]) {
            assert_eq!(decode_d(restart, &V, 2, &[0xEE]), accepted(2, steps, 0x00));
        }
        refused(&[0; 8], 0, &[0xEE], Refusal::Number(14));
        refused(&[0; 8], 6, &[0xEE], Refusal::Number(14));
        refused(
            &parse("00 00 00 00 00 00 00 20"),
            1,
            &[0xEE],
            Refusal::At(13, 7),
        );
        refused(
            &parse("00 00 00 00 00 00 00 E0"),
            1,
            &[0xEE],
            Refusal::At(13, 7),
        );
    }

    /// Request 2.1: eight zeros fail trial 1. Trial 2 flips index 3; restarted, it resumes at 5, and
    /// with half restart at 0.
    #[test]
    fn silence_under_d_with_start_1() {
        let failed = Refusal::AllFailed {
            trials: 1,
            steps: 24,
        };
        let later = [24, 24, 24 - skipped_steps(3, 5)];
        for (restart, later) in Restart::ALL.into_iter().zip(later) {
            let of = |limit| decode_under(&D_WITH_START, restart, &[0; 8], limit, &[0xEE]);
            assert_eq!(of(1), (Err(failed), vec![0xEE]));
            assert_eq!(of(2), accepted(2, 24 + later, 0x80));
            assert_eq!(of(5), of(2));
        }
    }

    #[test]
    fn the_order_of_v() {
        let values = read_channel(&V, 8).expect("channel values");
        let first = pass(&values, &[], &plain_rules(&MASK_OF_D));
        assert_eq!(order(&MASK_OF_D, &first.leaves), [5, 3, 6, 7]);
    }

    #[test]
    fn of_equal_magnitudes_the_lower_index_comes_first() {
        let leaves = [0, 0, 0, -2, 0, 1, 2, -1];
        assert_eq!(order(&MASK_OF_D, &leaves), [5, 7, 3, 6]);
        assert_eq!(order(&MASK_OF_D, &[0; 8]), [3, 5, 6, 7]);
    }

    #[test]
    fn refusals_before_the_first_trial() {
        refused(&[0; 7], 1, &[0xEE], Refusal::Number(12));
        refused(&[0; 8], u32::MAX, &[0xEE], Refusal::Number(14));
        refused(&[0; 8], 1, &[], Refusal::Number(15));
        refused(&[0; 8], 1, &[0xEE; 2], Refusal::Number(15));
    }

    #[test]
    fn the_first_fault_decides() {
        let bad = parse("09 00 01 00 03 01 01 00 80");
        for restart in Restart::ALL {
            let answer = decode(restart, &bad, &[], 0, &mut []);
            assert_eq!(answer, Err(Refusal::Number(8)));
        }
        refused(&[0x80; 9], 0, &[], Refusal::Number(12));
        refused(&[0x80; 8], 0, &[], Refusal::At(13, 0));
        refused(&[0; 8], 0, &[], Refusal::Number(14));
        refused(&V, 1, &[], Refusal::Number(15));
    }

    /// What demand 3 and request 2.4 say of the decoders, over every vector of small values under D
    /// and every T.
    #[test]
    fn the_decoders_agree() {
        for channel in samples::small_vectors() {
            let values = read_channel(&channel, 8).expect("channel values");
            let first = pass(&values, &[], &plain_rules(&MASK_OF_D));
            let order = order(&MASK_OF_D, &first.leaves);
            for limit in 1..=5 {
                let [full, half, restarted] =
                    Restart::ALL.map(|restart| decode_d(restart, &channel, limit, &[0xEE]));
                let (trials, steps) = trials_made(&full.0).expect("a first trial");
                assert_eq!(steps, trials * 24);
                let flipped = &order[..trials - 1];
                let right = flipped.iter().filter(|&&index| index >= 4).count();
                let q = |&index: &usize| Restart::AfterFlip.index(&MASK_OF_D, index);
                let skipped = flipped.iter().map(|index| skipped_steps(3, q(index)));
                for (other, saved) in [(half, 12 * right), (restarted, skipped.sum())] {
                    assert_eq!((other.0.is_ok(), other.1), (full.0.is_ok(), full.1.clone()));
                    assert_eq!(trials_made(&other.0), Some((trials, steps - saved)));
                }
            }
        }
    }

    /// The demand's noiseless clause.
    #[test]
    fn right_signs_pass_on_trial_1() {
        samples::for_descriptions(1, LAYERS, 10, |random, d, code| {
            let payload = random.bits(code.k);
            let x = codeword(&code, mask_of(d), &payload);
            let channel = samples::noiseless(random, &x);
            let limit = random.between(1, code.information() + 1) as u32;
            for restart in Restart::ALL {
                let mut output = random.bytes(packed_length(code.k));
                let answer = decode(restart, d, &channel, limit, &mut output);
                let steps = code.n << code.n;
                assert_eq!(answer, Ok(Accepted { trial: 1, steps }));
                assert_eq!(output, pack(&payload));
            }
        });
    }
}
