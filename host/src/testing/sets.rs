//! The library's decoders with flip sets, held to the reference and to each other.

use crate::reference::flip::Accepted;
use crate::reference::frame::Frame;
use crate::reference::refusal::Refusal;
use crate::reference::restart::Restart;
use crate::reference::sets::{decode_sets, sets_tried};
use crate::testing::decoders::{agree, check_steps, compare, Decoded};
use crate::testing::{lent, library};

/// How the reference decodes, and the library's decoder.
#[derive(Clone, Copy)]
pub struct Pair {
    restart: Restart,
    library: library::SetDecoder,
}

pub const FULL: Pair = Pair {
    restart: Restart::Full,
    library: library::decode_sets_full,
};

pub const HALF: Pair = Pair {
    restart: Restart::Half,
    library: library::decode_sets_half,
};

pub const RESTARTED: Pair = Pair {
    restart: Restart::AfterFlip,
    library: library::decode_sets_restarted,
};

/// The decoders, those with more steps first.
pub const ALL: [Pair; 3] = [FULL, HALF, RESTARTED];

/// What the decoders are lent beside the output buffer.
#[derive(Clone, Copy, Debug)]
pub struct Lent<'a> {
    pub description: &'a [u8],
    pub channel: &'a [u8],
    pub most_flips: u32,
    pub limit: u32,
}

impl Pair {
    /// The library's answer, and its output after it.
    pub fn run(self, of: Lent, before: &[u8]) -> (u64, Vec<u8>) {
        let (d, channel) = (of.description, of.channel);
        lent::decode_sets(self.library, d, channel, of.most_flips, of.limit, before)
    }

    fn check(self, of: Lent, before: &[u8]) -> Decoded {
        let (d, channel) = (of.description, of.channel);
        let (most_flips, limit) = (of.most_flips, of.limit);
        let reference =
            |output: &mut [u8]| decode_sets(self.restart, d, channel, most_flips, limit, output);
        compare(self.run(of, before), before, reference)
            .unwrap_or_else(|difference| panic!("{difference}: {of:02x?}"))
    }
}

/// Compares a call of all decoders, also with each other; gives full decoding's answer, and the set
/// of each trial made.
pub fn check(of: Lent, before: &[u8]) -> (Result<Accepted, Refusal>, Vec<Vec<usize>>) {
    let decoded = ALL.map(|decoder| decoder.check(of, before));
    let Some((trials, steps)) = agree(&decoded) else {
        return (decoded[0].0, vec![]);
    };
    let sets = tried(of);
    assert_eq!(sets.len(), trials);
    let lowest: Vec<usize> = sets[1..].iter().map(|set| set[0]).collect();
    check_steps(of.description, &lowest, steps);
    (decoded[0].0, sets)
}

/// The set of each trial that the reference makes.
fn tried(of: Lent) -> Vec<Vec<usize>> {
    let frame = Frame::read(of.description, of.channel).expect("a frame");
    sets_tried(&frame, of.most_flips, of.limit)
}
