//! Rows of the documents, and every vector of small values.

use host::testing::decoders::{check, Pair, ALL, FULL, HALF, RESTARTED};
use host::testing::outcomes::Outcomes;
use host::testing::paper::{D, D_WITH_START, RIGHT, V};
use host::testing::samples;

use crate::calls::number;

#[test]
fn rows_of_the_paper() {
    for decoder in ALL {
        let of = |channel: &[u8], limit| decoder.run(&D, channel, limit, &[0xEE]);
        assert_eq!(of(&RIGHT, 1), (number(0, 1, 24), vec![0xA0]));
        assert_eq!(of(&V, 1), (number(16, 1, 24), vec![0xEE]));
        assert_eq!(of(&[0; 8], 1), (number(0, 1, 24), vec![0x00]));
        assert_eq!(of(&V, 0), (14, vec![0xEE]));
        assert_eq!(of(&V, 6), (14, vec![0xEE]));
        assert_eq!(of(&V, 5).0 % 256, 0);
        for byte in [32, 224] {
            let channel = [0, 0, 0, 0, 0, 0, 0, byte];
            assert_eq!(of(&channel, 1), (number(13, 7, 0), vec![0xEE]));
        }
    }
    let v = |decoder: Pair| decoder.run(&D, &V, 2, &[0xEE]);
    assert_eq!(v(FULL), (number(0, 2, 48), vec![0x00]));
    assert_eq!(v(HALF), (number(0, 2, 36), vec![0x00]));
    assert_eq!(v(RESTARTED), (number(0, 2, 32), vec![0x00]));
}

/// Request 2.1: silence fails trial 1, and at T = 2 it is accepted on trial 2.
#[test]
fn silence_under_d_with_start_1() {
    let of = |decoder: Pair, limit| decoder.run(&D_WITH_START, &[0; 8], limit, &[0xEE]);
    for decoder in ALL {
        assert_eq!(of(decoder, 1), (number(16, 1, 24), vec![0xEE]));
    }
    assert_eq!(of(FULL, 2), (number(0, 2, 48), vec![0x80]));
    assert_eq!(of(HALF, 2), (number(0, 2, 48), vec![0x80]));
    assert_eq!(of(RESTARTED, 2), (number(0, 2, 35), vec![0x80]));
}

#[test]
fn every_small_vector_of_the_paper_s_code() {
    every_small_vector(&D);
    every_small_vector(&D_WITH_START);
}

/// Every vector of −1, 0 and 1 with every T: nothing but zeros and ties.
fn every_small_vector(d: &[u8]) {
    let mut outcomes = Outcomes::default();
    for channel in samples::small_vectors() {
        for limit in 1..=5 {
            outcomes.count(check(d, &channel, limit, &[0xEE]));
        }
    }
    outcomes.at_least(1_000);
}
