//! The library's decoders, by what they flip and where a later trial resumes.

use crate::simulation::Named;
use crate::testing::library;

/// What a later trial flips: there is none, single indices by their magnitudes, or sets of up to w
/// indices by their metrics, which document 000 calls DSCF-w.
#[derive(Clone, Copy, Debug, PartialEq, Eq)]
pub enum Flips {
    OnePass,
    Single,
    Sets(u32),
}

/// Where a later trial resumes: at 0, at N/2 or 0, or after its lowest flipped index.
#[derive(Clone, Copy, Debug, PartialEq, Eq)]
pub enum Restart {
    Full,
    Half,
    Restarted,
}

pub const RESTARTS: [Restart; 3] = [Restart::Full, Restart::Half, Restart::Restarted];

impl Flips {
    /// The trial limit of document 000.
    pub fn limit(self) -> u32 {
        match self {
            Flips::OnePass => 1,
            Flips::Single => 13,
            Flips::Sets(1) => 8,
            Flips::Sets(2) => 51,
            Flips::Sets(_) => 301,
        }
    }
}

impl Named for Flips {
    const ALL: &'static [Flips] = &[
        Flips::OnePass,
        Flips::Single,
        Flips::Sets(1),
        Flips::Sets(2),
        Flips::Sets(3),
    ];

    fn name(self) -> &'static str {
        match self {
            Flips::OnePass => "one pass",
            Flips::Single => "single flips",
            Flips::Sets(1) => "DSCF-1",
            Flips::Sets(2) => "DSCF-2",
            Flips::Sets(_) => "DSCF-3",
        }
    }
}

/// A call of the library.
pub fn decode(
    (flips, restart): (Flips, Restart),
    limit: u32,
    description: &[u8],
    channel: &[u8],
    payload: &mut [u8],
) -> u64 {
    match flips {
        Flips::OnePass | Flips::Single => single(restart)(description, channel, limit, payload),
        Flips::Sets(w) => sets(restart)(description, channel, w, limit, payload),
    }
}

fn single(restart: Restart) -> library::Decoder {
    match restart {
        Restart::Full => library::decode_full,
        Restart::Half => library::decode_half,
        Restart::Restarted => library::decode_restarted,
    }
}

fn sets(restart: Restart) -> library::SetDecoder {
    match restart {
        Restart::Full => library::decode_sets_full,
        Restart::Half => library::decode_sets_half,
        Restart::Restarted => library::decode_sets_restarted,
    }
}
