//! The 255th vector of a hearing, and the next.

use host::reference::hearing::{Hearing, MOST_HEARINGS};
use host::reference::sizes::LAYERS;
use host::testing::cab::Cab;
use host::testing::hearing::{refusal, Call};
use host::testing::random::Random;

use crate::cabs::{after, of_both_kinds};

#[test]
fn a_full_hearing() {
    let mut random = Random::new(1);
    for n in LAYERS {
        for cab in of_both_kinds(&mut random, n, true) {
            let mut state = after(&mut random, &cab, MOST_HEARINGS - 1);
            check_last(&mut random, &cab, &mut state);
            check_full(&mut random, &cab, &mut state);
            check_cleared(&mut random, &cab, &mut state);
        }
    }
}

/// The last vector is tried, then added.
fn check_last(random: &mut Random, cab: &Cab, state: &mut Vec<u8>) {
    assert!([0, 16].contains(&refusal(cab.preview(random).make(state))));
    assert_eq!(cab.add(random).make(state), 255 << 8);
}

/// Nothing more is tried or added, zeros neither; a wrong vector is refused for what is wrong with it.
fn check_full(random: &mut Random, cab: &Cab, state: &mut Vec<u8>) {
    let full = state.clone();
    let zeros = Call::Add(vec![0; 1 << cab.code().n]);
    for _ in 0..4 {
        assert_eq!(cab.add(random).make(state), 27);
        assert_eq!(zeros.make(state), 27);
        for faults in [&[][..], &[14], &[15], &[15, 14]] {
            assert_eq!(cab.wrong_preview(random, faults).make(state), 27);
        }
        for (faults, expected) in [(&[12][..], 12), (&[13], 13), (&[13, 12], 12)] {
            for call in [
                cab.wrong_add(random, faults),
                cab.wrong_preview(random, faults),
            ] {
                assert_eq!(refusal(call.make(state)), expected);
            }
        }
        assert!([0, 16].contains(&refusal(cab.decode(random).make(state))));
    }
    assert_eq!(*state, full);
}

/// After clearing it is a fresh hearing.
fn check_cleared(random: &mut Random, cab: &Cab, state: &mut Vec<u8>) {
    assert_eq!(Call::Clear.make(state), 0);
    let fresh = Hearing::open(&cab.description).expect("a hearing");
    assert_eq!(*state, fresh.to_bytes());
    assert_eq!(cab.add(random).make(state), 1 << 8);
}
