//! The 64-bit number that C gets: document 01, "Flip decoding, full and restarted". Bits 0–7 hold
//! the refusal, or 0; bits 8–31 the trial, refusal 16's trials, a refusal's first index, or the count
//! of hearings; bits 32–63 the steps; what an answer lacks is 0.

use crate::reference::flip::Accepted;
use crate::reference::quantise::Quantised;
use crate::reference::refusal::Refusal;

/// The number of an answer of `encode`.
pub fn encode_number(answer: &Result<(), Refusal>) -> u64 {
    match answer {
        Ok(()) => number(0, 0, 0),
        Err(refusal) => number_of_refusal(refusal),
    }
}

/// The number of an answer of `resume`.
pub fn resume_number(answer: &Result<usize, Refusal>) -> u64 {
    match answer {
        Ok(steps) => number(0, 0, *steps),
        Err(refusal) => number_of_refusal(refusal),
    }
}

/// The number of an answer of a decoder.
pub fn decode_number(answer: &Result<Accepted, Refusal>) -> u64 {
    match answer {
        Ok(accepted) => number(0, accepted.trial, accepted.steps),
        Err(refusal) => number_of_refusal(refusal),
    }
}

/// The number of an answer of a call that opens, adds to or clears a hearing, by the count of hearings
/// after it.
pub fn hearing_number(answer: &Result<usize, Refusal>) -> u64 {
    match answer {
        Ok(count) => number(0, *count, 0),
        Err(refusal) => number_of_refusal(refusal),
    }
}

/// An answer of the quantiser as `library::quantise` gives it: the peak, or positive zero with a
/// refusal; the refusal or 0, then the clipped count, a refusal's first index, or 0.
pub fn quantise_numbers(answer: &Result<Quantised, Refusal>) -> (f32, [u64; 2]) {
    match *answer {
        Ok(Quantised { peak, clipped }) => (peak, [0, clipped as u64]),
        Err(Refusal::At(of, index)) => (0.0, [of.into(), index as u64]),
        Err(refusal) => (0.0, [refusal.number().into(), 0]),
    }
}

fn number_of_refusal(refusal: &Refusal) -> u64 {
    match *refusal {
        Refusal::Number(of) => number(of, 0, 0),
        Refusal::At(of, index) => number(of, index, 0),
        Refusal::AllFailed { trials, steps } => number(16, trials, steps),
    }
}

/// Panics where a part has no room.
fn number(refusal: u8, middle: usize, steps: usize) -> u64 {
    assert!(middle < 1 << 24, "{middle} has more than 24 bits");
    assert!(steps < 1 << 32, "{steps} has more than 32 bits");
    u64::from(refusal) + ((middle as u64) << 8) + ((steps as u64) << 32)
}

#[cfg(test)]
mod tests {
    use super::*;
    use crate::reference::sizes::{MOST_STEPS, MOST_TRIALS};

    #[test]
    fn each_answer_has_its_bits() {
        assert_eq!(encode_number(&Ok(())), 0);
        assert_eq!(encode_number(&Err(Refusal::Number(10))), 10);
        assert_eq!(resume_number(&Ok(8)), 0x0000_0008_0000_0000);
        let first_index = Err(Refusal::At(18, 0x2A5));
        assert_eq!(resume_number(&first_index), 0x0000_0000_0002_A512);
        let accepted = Accepted {
            trial: 2,
            steps: 32,
        };
        assert_eq!(decode_number(&Ok(accepted)), 0x0000_0020_0000_0200);
        let failed = Refusal::AllFailed {
            trials: 1,
            steps: 24,
        };
        assert_eq!(decode_number(&Err(failed)), 0x0000_0018_0000_0110);
        assert_eq!(hearing_number(&Ok(0)), 0);
        assert_eq!(hearing_number(&Ok(255)), 0xFF00);
        assert_eq!(hearing_number(&Err(Refusal::Number(27))), 27);
        assert_eq!(hearing_number(&Err(Refusal::At(13, 7))), 0x070D);
    }

    #[test]
    fn the_most_trials_have_room() {
        let accepted = Accepted {
            trial: MOST_TRIALS,
            steps: MOST_TRIALS * MOST_STEPS,
        };
        let expected = (MOST_TRIALS * MOST_STEPS) << 32 | MOST_TRIALS << 8;
        assert_eq!(decode_number(&Ok(accepted)), expected as u64);
    }
}
