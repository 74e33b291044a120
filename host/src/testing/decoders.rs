//! The library's decoders, held to the reference and to each other.

use crate::reference::description::{describe, mask_of};
use crate::reference::flip::{self, order, trials_made, Accepted};
use crate::reference::frame::Frame;
use crate::reference::number::decode_number;
use crate::reference::pass::skipped_steps;
use crate::reference::refusal::{refusal_number, Refusal};
use crate::reference::restart::Restart;
use crate::testing::guard::lend_reference;
use crate::testing::{lent, library};

/// An answer, and the output after it.
pub type Decoded = (Result<Accepted, Refusal>, Vec<u8>);

/// How the reference decodes, and the library's decoder.
#[derive(Clone, Copy)]
pub struct Pair {
    restart: Restart,
    library: library::Decoder,
}

pub const FULL: Pair = Pair {
    restart: Restart::Full,
    library: library::decode_full,
};

pub const HALF: Pair = Pair {
    restart: Restart::Half,
    library: library::decode_half,
};

pub const RESTARTED: Pair = Pair {
    restart: Restart::AfterFlip,
    library: library::decode_restarted,
};

/// The decoders, those with more steps first.
pub const ALL: [Pair; 3] = [FULL, HALF, RESTARTED];

/// The reference's restarted decoder, called as the library's.
pub const REFERENCE: library::Decoder = |d, channel, limit, payload| {
    let answer = flip::decode(Restart::AfterFlip, d, channel, limit, payload);
    decode_number(&answer)
};

impl Pair {
    /// The library's answer, and its output after it.
    pub fn run(self, d: &[u8], channel: &[u8], limit: u32, before: &[u8]) -> (u64, Vec<u8>) {
        lent::decode(self.library, d, channel, limit, before)
    }

    fn check(self, d: &[u8], channel: &[u8], limit: u32, before: &[u8]) -> Decoded {
        let answer = self.run(d, channel, limit, before);
        let reference = |output: &mut [u8]| flip::decode(self.restart, d, channel, limit, output);
        compare(answer, before, reference).unwrap_or_else(|difference| {
            panic!("{difference}: {d:02x?} {channel:02x?} {limit}");
        })
    }
}

/// Compares a call of all decoders, also with each other; gives full decoding's answer.
pub fn check(d: &[u8], channel: &[u8], limit: u32, before: &[u8]) -> Result<Accepted, Refusal> {
    let decoded = ALL.map(|decoder| decoder.check(d, channel, limit, before));
    if let Some((trials, steps)) = agree(&decoded) {
        check_steps(d, &flipped(d, channel, trials), steps);
    }
    decoded[0].0
}

/// The flipped index of each of so many trials, after the first.
pub fn flipped(d: &[u8], channel: &[u8], trials: usize) -> Vec<usize> {
    if trials == 1 {
        return vec![];
    }
    let frame = Frame::read(d, channel).expect("a frame");
    let mut order = order(frame.mask, &frame.first_trial().leaves);
    order.truncate(trials - 1);
    order
}

/// Compares what the library gave with the reference, in the answer and in each byte of the output
/// buffer, which held `before`; gives both, or how they differ.
pub fn compare(
    library: (u64, Vec<u8>),
    before: &[u8],
    reference: impl FnOnce(&mut [u8]) -> Result<Accepted, Refusal>,
) -> Result<Decoded, String> {
    let (answer, output) = lend_reference(before, reference);
    let expected = (decode_number(&answer), output);
    match library == expected {
        true => Ok((answer, expected.1)),
        false => Err(format!("{library:02x?} and not {expected:02x?}")),
    }
}

/// That the decoders give the same but for steps. Gives the trials made, and the steps of each;
/// nothing where the first trial was not made.
pub fn agree(decoded: &[Decoded; 3]) -> Option<(usize, [usize; 3])> {
    let [full, others @ ..] = decoded;
    for other in others {
        assert_eq!(full.1, other.1);
        assert_eq!(refusal_number(&full.0), refusal_number(&other.0));
    }
    let made = [0, 1, 2].map(|place| trials_made(&decoded[place].0));
    let [Some(full), Some(half), Some(restarted)] = made else {
        assert!(others.iter().all(|other| other.0 == full.0));
        return None;
    };
    assert_eq!([half.0, restarted.0], [full.0; 2]);
    Some((full.0, [full.1, half.1, restarted.1]))
}

/// Full decoding makes n × N steps a trial. In each trial after the first, half restart saves half of
/// them where the lowest flipped index is N/2 or above, and restarting the closed sum at the first
/// information index after it.
pub fn check_steps(d: &[u8], lowest_flipped: &[usize], [full, half, restarted]: [usize; 3]) {
    let n = describe(d).expect("a code").n;
    assert_eq!(full, (1 + lowest_flipped.len()) * (n << n));
    let right = lowest_flipped
        .iter()
        .filter(|&&lowest| lowest >> (n - 1) == 1);
    assert_eq!(full - half, right.count() * (n << n) / 2);
    let q = |&lowest: &usize| Restart::AfterFlip.index(mask_of(d), lowest);
    let skipped = lowest_flipped
        .iter()
        .map(|lowest| skipped_steps(n, q(lowest)));
    assert_eq!(full - restarted, skipped.sum());
    assert!(restarted <= half && half <= full);
}

/// That an acceptance stays under a larger limit, output and steps included, and that without one at
/// least as many trials and steps are made. Gives whether it was accepted.
pub fn stays(answer: (u64, Vec<u8>), later: (u64, Vec<u8>)) -> bool {
    let is_accepted = answer.0 & 0xFF == 0;
    if is_accepted {
        assert_eq!(later, answer);
    } else {
        let trials = |answer: u64| answer >> 8 & 0xFF_FFFF;
        assert!(trials(later.0) >= trials(answer.0) && later.0 >> 32 >= answer.0 >> 32);
    }
    is_accepted
}
