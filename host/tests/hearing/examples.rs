//! Hearings of document 01's code, by hand.

use host::reference::sizes::HEARING_SIZE;
use host::testing::hearing::{preview, Call, BOTH, FULL, RESTARTED};
use host::testing::paper::{right, D, D_WITH_START, RIGHT, V};

/// A hearing of a description to which these were added.
fn heard(d: &[u8], vectors: &[[u8; 8]]) -> Vec<u8> {
    let mut state = vec![0xEE; HEARING_SIZE];
    assert_eq!(Call::Open(d.to_vec()).make(&mut state), 0);
    for (index, vector) in vectors.iter().enumerate() {
        let count = index as u64 + 1;
        assert_eq!(Call::Add(vector.to_vec()).make(&mut state), count << 8);
    }
    state
}

/// What both decoders give; each makes 24 steps in trial 1.
fn decoded(state: &[u8], limit: u32, number: u64, payload: u8) {
    for by in BOTH {
        let expected = (number + (24 << 32), vec![payload]);
        assert_eq!(by.run(state, limit, &[0xEE]), expected);
    }
}

/// V fails trial 1, and so does twice V. With right signs it is decoded.
#[test]
fn two_hearings_of_d() {
    decoded(&heard(&D, &[V]), 1, 0x110, 0xEE);
    decoded(&heard(&D, &[V, V]), 1, 0x110, 0xEE);
    decoded(&heard(&D, &[V, RIGHT]), 1, 0x100, 0xA0);
    let twice = heard(&D, &[V, V]);
    let on_trial_2 = |steps: u64| (0x200 + (steps << 32), vec![0x00]);
    assert_eq!(FULL.run(&twice, 2, &[0xEE]), on_trial_2(48));
    assert_eq!(RESTARTED.run(&twice, 2, &[0xEE]), on_trial_2(32));
}

/// While V is held, right signs are tried, and V again; V is still held afterwards.
#[test]
fn a_second_hearing_of_d_tried() {
    let held = heard(&D, &[V]);
    let tried = |vector: &[u8], limit| preview(&held, vector, limit, &[0xEE]);
    let expected = |number: u64, steps: u64, payload| (number + (steps << 32), vec![payload]);
    for _ in 0..3 {
        assert_eq!(tried(&RIGHT, 1), expected(0x100, 24, 0xA0));
        assert_eq!(tried(&V, 1), expected(0x110, 24, 0xEE));
        assert_eq!(tried(&V, 2), expected(0x200, 32, 0x00));
        assert_eq!(tried(&V[..7], 0), expected(12, 0, 0xEE));
        decoded(&held, 1, 0x110, 0xEE);
    }
}

/// Before the first add, and after clearing, zeros are decoded.
#[test]
fn nothing_heard() {
    let mut cleared = heard(&D, &[RIGHT, RIGHT]);
    assert_eq!(Call::Clear.make(&mut cleared), 0);
    assert_eq!(cleared, heard(&D, &[]));
    decoded(&cleared, 1, 0x100, 0x00);
    decoded(&heard(&D_WITH_START, &[]), 1, 0x110, 0xEE);
}

/// Two sums of 40 are clipped to 31, and −31 makes each of them 0: zeros are decoded. Where −31 comes
/// before, 9 is left: the signs of RIGHT.
#[test]
fn the_order_of_adds() {
    let [plus, minus] = [20, -31].map(right);
    decoded(&heard(&D, &[plus, plus, minus]), 1, 0x100, 0x00);
    decoded(&heard(&D, &[plus, minus, plus]), 1, 0x100, 0xA0);
    decoded(&heard(&D, &[minus, plus, plus]), 1, 0x100, 0xA0);
}
