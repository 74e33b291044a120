//! Trial limits: their edges, sets that are used up before, and what a larger one changes.

use host::reference::description::{describe, record};
use host::reference::packing::packed_length;
use host::reference::refusal::refusal_number;
use host::reference::sets::{limits, LIMITS_OF_SETS, MOST_FLIPS};
use host::reference::sizes::{LARGEST_N, LAYERS, MOST_TRIALS};
use host::testing::decoders::stays;
use host::testing::random::Random;
use host::testing::samples::{self, for_descriptions};
use host::testing::sets::{check, Lent, ALL};

use crate::outcomes::Outcomes;

/// Limits that are refused with this w, among them those that are allowed with another.
fn beyond(most: u32) -> impl Iterator<Item = u32> {
    let powers = (9..=LARGEST_N + 1).chain([16, 24, 31]).map(|i| 1 << i);
    let near = powers.flat_map(|power| [power, power + 1]);
    near.chain([0, most + 1, MOST_TRIALS as u32 + 1, u32::MAX])
        .filter(move |limit| !(1..=most).contains(limit))
}

#[test]
fn limits_at_their_edges() {
    let mut random = Random::new(1);
    for n in LAYERS {
        for _ in 0..(2_000 >> n).max(3) {
            let d = samples::description(&mut random, n);
            for most_flips in MOST_FLIPS {
                check_limits(&mut random, &d, most_flips);
            }
        }
    }
}

/// The least limits and the largest, of long codes at most 20, and those that are refused.
fn check_limits(random: &mut Random, d: &[u8], most_flips: u32) {
    let code = describe(d).expect("a code");
    let channel = samples::channel(random, code.size(), 31);
    let before = random.bytes(packed_length(code.k));
    let refusal = |limit| {
        let of = Lent {
            description: d,
            channel: &channel,
            most_flips,
            limit,
        };
        refusal_number(&check(of, &before).0)
    };
    let most = *limits(&code, most_flips).end();
    let largest = if code.n > 5 { 20 } else { most };
    for limit in [1, 2, largest.min(most - 1), largest.min(most)] {
        assert_ne!(refusal(limit), 14, "{limit}");
    }
    for limit in beyond(most) {
        assert_eq!(refusal(limit), 14, "{limit}");
    }
}

/// Codes with one payload bit: two of all messages pass, and many runs end before T.
#[test]
fn sets_that_are_used_up() {
    let mut random = Random::new(2);
    let mut outcomes = Outcomes::default();
    for _ in 0..4_000 {
        let n = random.between(3, 5);
        let r = random.between(3, 5);
        let mask = samples::mask(&mut random, 1 << n, r + 1);
        let d = record(n, r, samples::polynomial(&mut random, r), &mask);
        let d = samples::either_kind(&mut random, d);
        let channel = samples::channel(&mut random, 1 << n, 31);
        let of = Lent {
            description: &d,
            channel: &channel,
            most_flips: 2,
            limit: random.between(10, *LIMITS_OF_SETS.end() as usize) as u32,
        };
        outcomes.check(of, &[random.byte()]);
    }
    println!("{outcomes:?}");
    assert!(outcomes.used_up >= 500, "{outcomes:?}");
}

/// What is accepted stays under a larger limit, by all decoders; where none accepts, more trials are
/// made.
#[test]
fn a_larger_limit_changes_nothing_that_is_accepted() {
    let mut accepted = 0;
    for_descriptions(3, 3..=6, 800, |random, d, code| {
        let channel = samples::channel(random, code.size(), 31);
        let most_flips = samples::most_flips(random);
        let most = *limits(&code, most_flips).end() as usize;
        let limit = random.between(1, most.min(40));
        let larger = random.between(limit, most);
        let before = random.bytes(packed_length(code.k));
        for decoder in ALL {
            let of = |limit| Lent {
                description: d,
                channel: &channel,
                most_flips,
                limit: limit as u32,
            };
            let [answer, later] = [limit, larger].map(|limit| decoder.run(of(limit), &before));
            accepted += usize::from(stays(answer, later));
        }
    });
    assert!(accepted >= 1_000, "{accepted}");
}
