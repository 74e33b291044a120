//! Trial limits, and the runs of trials that they end.

use host::reference::description::{record, with_start};
use host::reference::refusal::{refusal_number, Refusal};
use host::reference::sizes::{LARGEST_N, LAYERS, LONGEST, MOST_STEPS, MOST_TRIALS};
use host::testing::decoders::{check, flipped, stays, ALL};
use host::testing::passing::passing_description;
use host::testing::random::Random;
use host::testing::samples::{self, for_descriptions};

use crate::calls::{code_of, limit, room, sent};

#[test]
fn every_limit_of_small_codes() {
    for_descriptions(1, 3..=5, 200, |random, d, code| {
        let largest = [1, 3, 31][random.below(3)];
        let channel = samples::channel(random, code.size(), largest);
        let most = code.information() as u32 + 1;
        for limit in 0..=most + 1 {
            let allowed = (1..=most).contains(&limit);
            let answer = check(d, &channel, limit, &room(random, d));
            assert_eq!(refusal_number(&answer) == 14, !allowed);
        }
    });
}

#[test]
fn limits_at_their_edges() {
    let mut random = Random::new(2);
    for n in LAYERS {
        for _ in 0..(3_000 >> n).max(3) {
            let d = samples::description(&mut random, n);
            check_limits(&mut random, &d);
        }
    }
}

/// The least limits and the largest, of long codes at most 40, and some that are refused.
fn check_limits(random: &mut Random, d: &[u8]) {
    let code = code_of(d);
    let channel = samples::channel(random, code.size(), 31);
    let before = room(random, d);
    let most = code.information() as u32 + 1;
    let largest = if code.n > 8 { 40 } else { most };
    for limit in [1, 2, largest.min(most - 1), largest.min(most)] {
        assert_ne!(refusal_number(&check(d, &channel, limit, &before)), 14);
    }
    let beyond = [8, 16, 24, 31].map(|i| (1 << i) + 1).into_iter();
    let beyond = beyond.filter(|&limit| limit > most);
    for limit in beyond.chain([0, most + 1, u32::MAX]) {
        assert_eq!(refusal_number(&check(d, &channel, limit, &before)), 14);
    }
}

/// What is accepted stays under a larger limit, with its steps, by all decoders; where none accepts,
/// more trials are made.
#[test]
fn a_larger_limit_changes_nothing_that_is_accepted() {
    let mut accepted = 0;
    for_descriptions(14, LAYERS, 150, |random, d, code| {
        let channel = samples::channel(random, code.size(), 31);
        let first = random.between(1, code.information().min(20));
        let larger = limit(random, d, 60).max(first as u32);
        let before = room(random, d);
        for decoder in ALL {
            let of = |limit| decoder.run(d, &channel, limit, &before);
            accepted += usize::from(stays(of(first as u32), of(larger)));
        }
    });
    assert!(accepted >= 500, "{accepted}");
}

/// The longest run: the longest code, all indices information indices, every trial made.
fn check_most_trials(d: &[u8]) {
    let mut random = Random::new(3);
    let channel = samples::channel(&mut random, LONGEST, 31);
    let failed = Refusal::AllFailed {
        trials: MOST_TRIALS,
        steps: MOST_TRIALS * MOST_STEPS,
    };
    let answer = check(d, &channel, MOST_TRIALS as u32, &room(&mut random, d));
    assert_eq!(answer, Err(failed));
}

#[test]
fn the_most_trials() {
    check_most_trials(&record(LARGEST_N, 16, 0x8005, &[true; LONGEST]));
}

#[test]
fn the_most_trials_with_a_start() {
    let d = record(LARGEST_N, 16, 0x8005, &[true; LONGEST]);
    check_most_trials(&with_start(&d, 0xFFFF));
}

/// Frames of long codes that one of all trials accepts, mostly after hundreds of others.
#[test]
fn late_trials() {
    let mut random = Random::new(13);
    for n in 9..=LARGEST_N {
        for _ in 0..4 {
            let ones = random.between(200, 500);
            let mask = samples::mask(&mut random, 1 << n, ones);
            let d = record(n, 16, 0x8005, &mask);
            let channel = samples::channel(&mut random, 1 << n, 31);
            let trial = random.between(2, ones + 1);
            let flipped = flipped(&d, &channel, ones + 1)[trial - 2];
            let d = passing_description(&d, &channel, &[flipped]);
            let answer = check(&d, &channel, ones as u32 + 1, &room(&mut random, &d));
            assert!(answer.is_ok_and(|accepted| accepted.trial <= trial));
        }
    }
}

/// Codes whose indices are all information indices: the largest limit is K + 1 = N + 1.
#[test]
fn the_largest_limits() {
    let mut random = Random::new(12);
    for n in LAYERS {
        let d = record(n, 1, 1, &vec![true; 1 << n]);
        let most = (1 << n) + 1;
        for d in [with_start(&d, 1), d] {
            let (x, _) = sent(&mut random, &d);
            let channel = samples::noiseless(&mut random, &x);
            let mut refusal = |limit| {
                let answer = check(&d, &channel, limit, &room(&mut random, &d));
                refusal_number(&answer)
            };
            assert_eq!([1, most - 1, most].map(&mut refusal), [0; 3]);
            assert_eq!([0, most + 1, u32::MAX].map(&mut refusal), [14; 3]);
        }
    }
}
