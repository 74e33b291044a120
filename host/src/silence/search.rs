//! When silence is accepted.

use crate::reference::description::{describe, with_start, Code};
use crate::reference::packing::packed_length;
use crate::testing::library::Decoder;

/// Refusal 16: all trials fail.
const ALL_FAILED: u64 = 16;

/// So many steps take some seconds.
const BUDGET: usize = 4_000_000_000;

/// The trial that accepts silence, and the payload that it gives.
#[derive(Debug, PartialEq, Eq)]
pub struct Acceptance {
    pub trial: u32,
    pub payload: Vec<u8>,
}

/// Decodes N zero values under an accepted description with the largest T, K + 1. A run ends with the
/// first trial that passes, so this trial is the least T at which silence is accepted.
pub fn first_accepted(decode: Decoder, description: &[u8]) -> Option<Acceptance> {
    let code = describe(description).expect("an accepted description");
    let mut payload = vec![0; packed_length(code.k)];
    let limit = code.information() as u32 + 1;
    let answer = decode(description, &vec![0; code.size()], limit, &mut payload);
    match answer & 0xFF {
        0 => Some(Acceptance {
            trial: (answer >> 8 & 0xFF_FFFF) as u32,
            payload,
        }),
        ALL_FAILED => None,
        refusal => panic!("zero values are refused with number {refusal}"),
    }
}

/// How many starts are tried, from 0 on: all 2^r, or as many as `BUDGET` suffices for.
pub fn starts_to_try(code: &Code) -> usize {
    let steps = (code.information() + 1) * (code.n << code.n);
    (BUDGET / steps).min(1 << code.r)
}

/// The least T at which silence is accepted with each start from 0 on, of the same code.
pub fn first_limits(decode: Decoder, description: &[u8], count: usize) -> Vec<Option<u32>> {
    let of = |start| first_accepted(decode, &with_start(description, start as u16));
    let accepted = (0..count).map(of);
    accepted.map(|accepted| Some(accepted?.trial)).collect()
}

#[cfg(test)]
mod tests {
    use super::*;
    use crate::reference::description::record;
    use crate::reference::sizes::{LARGEST_N, LONGEST};
    use crate::testing::decoders::REFERENCE;
    use crate::testing::paper::{D, D_WITH_START};
    use crate::testing::samples::useful_mask;

    #[test]
    fn d_with_each_start() {
        let of = |d| first_accepted(REFERENCE, d).map(|found| (found.trial, found.payload));
        assert_eq!(of(&D), Some((1, vec![0x00])));
        assert_eq!(of(&D_WITH_START), Some((2, vec![0x80])));
        assert_eq!(first_limits(REFERENCE, &D, 2), [Some(1), Some(2)]);
        assert_eq!(first_limits(REFERENCE, &D_WITH_START, 1), [Some(1)]);
    }

    /// z^3 + z + 1 with two payload bits: trials 2 to 6 meet five of the seven powers of z.
    #[test]
    fn starts_that_never_accept() {
        let d = record(3, 3, 3, &useful_mask(8, 5));
        let limits = first_limits(REFERENCE, &d, 8);
        let or_0: Vec<u32> = limits.iter().map(|limit| limit.unwrap_or(0)).collect();
        assert_eq!(or_0, [1, 4, 3, 0, 2, 5, 0, 6]);
    }

    #[test]
    fn long_codes_are_tried_with_fewer_starts() {
        let of = |d: Vec<u8>| starts_to_try(&describe(&d).expect("a code"));
        assert_eq!(of(D.to_vec()), 2);
        assert_eq!(of(record(6, 16, 1, &[true; 64])), 65_536);
        let few = of(record(LARGEST_N, 16, 1, &[true; LONGEST]));
        assert!((10..1_000).contains(&few), "{few}");
    }
}
