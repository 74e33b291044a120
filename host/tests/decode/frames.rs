//! Frames under noise, without noise, and never sent.

use host::reference::description::{mask_of, record};
use host::reference::placing::place;
use host::reference::sizes::LAYERS;
use host::reference::transform::transform;
use host::testing::decoders::{check, ALL};
use host::testing::outcomes::Outcomes;
use host::testing::random::Random;
use host::testing::samples;

use crate::calls::{code_of, limit, number, room, sent};

/// Codewords under noise of several strengths.
#[test]
fn noise() {
    let mut random = Random::new(4);
    for n in LAYERS {
        let mut outcomes = Outcomes::default();
        for round in 0..(60_000 >> n).max(600) {
            let d = samples::useful_description(&mut random, n);
            let (x, _) = sent(&mut random, &d);
            let strength = random.between(8, 16);
            let noise = strength * [3, 5, 6, 7, 8, 12][round % 6] / 8;
            let channel = samples::noisy(&mut random, &x, strength, noise);
            let limit = limit(&mut random, &d, 13);
            outcomes.count(check(&d, &channel, limit, &room(&mut random, &d)));
        }
        outcomes.at_least(20);
    }
}

#[test]
fn right_signs() {
    let mut random = Random::new(5);
    for n in LAYERS {
        for _ in 0..(20_000 >> n).max(50) {
            let d = samples::description(&mut random, n);
            check_right_signs(&mut random, &d);
        }
    }
}

/// The payload on trial 1, by all decoders.
fn check_right_signs(random: &mut Random, d: &[u8]) {
    let (x, payload) = sent(random, d);
    let channel = samples::noiseless(random, &x);
    let limit = limit(random, d, usize::MAX);
    let n = code_of(d).n;
    let accepted = number(0, 1, (n << n) as u64);
    for decoder in ALL {
        let answer = decoder.run(d, &channel, limit, &room(random, d));
        assert_eq!(answer, (accepted, payload.clone()));
    }
}

/// Strong values of bits whose check is mostly wrong: leaf values come near the bound, and a
/// flipped bit sets them against each other.
#[test]
fn strong_values() {
    let mut random = Random::new(11);
    let mut outcomes = Outcomes::default();
    for n in LAYERS {
        let size = 1 << n;
        for _ in 0..100 {
            let r = random.between(1, 6);
            let ones = random.between(r + 1, 20.min(size));
            let polynomial = samples::polynomial(&mut random, r);
            let d = record(n, r, polynomial, &samples::useful_mask(size, ones));
            let d = samples::either_kind(&mut random, d);
            let x = transform(&place(mask_of(&d), &random.bits(ones)));
            let channel = samples::noisy(&mut random, &x, 24, 2);
            let limit = ones as u32 + 1;
            outcomes.count(check(&d, &channel, limit, &room(&mut random, &d)));
        }
    }
    outcomes.at_least(20);
}

/// Values that were never sent: any, small ones with zeros and ties, of one magnitude, all zero.
#[test]
fn garbage() {
    let mut random = Random::new(6);
    let mut outcomes = Outcomes::default();
    for n in LAYERS {
        for round in 0..(40_000 >> n).max(60) {
            let size = 1 << n;
            let d = samples::description(&mut random, n);
            let channel = match round % 4 {
                0 => samples::channel(&mut random, size, 31),
                1 => samples::channel(&mut random, size, 1),
                2 => random
                    .bits(size)
                    .iter()
                    .map(|bit| [7, 249][usize::from(*bit)])
                    .collect(),
                _ => vec![0; size],
            };
            let limit = limit(&mut random, &d, 20);
            outcomes.count(check(&d, &channel, limit, &room(&mut random, &d)));
        }
    }
    outcomes.at_least(1_000);
}
