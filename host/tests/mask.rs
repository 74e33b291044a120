//! The library's mask bits and counts of ones, held to the reference.

use host::reference::description::{count_information, is_information};
use host::reference::sizes::{LONGEST, LONGEST_BYTES};
use host::testing::guard::lend_input;
use host::testing::library;
use host::testing::random::Random;

#[test]
fn every_mask_bit() {
    let mut random = Random::new(1);
    for length in 0..=LONGEST_BYTES {
        let mask = random.bytes(length);
        let bit = |index| lend_input(&mask, |lent| library::mask_bit(lent, index));
        for index in 0..8 * length {
            assert_eq!(
                bit(index),
                u64::from(is_information(&mask, index)),
                "{index}"
            );
        }
        for index in [8 * length, 8 * length + 1, usize::MAX / 8, usize::MAX] {
            assert_eq!(bit(index), 2, "{index} of {length} bytes");
        }
    }
}

#[test]
fn ones_of_every_byte() {
    for byte in 0..=255 {
        let expected = count_information(&[byte]) as u64;
        assert_eq!(lend_input(&[byte], library::ones), expected);
    }
}

#[test]
fn ones_of_random_masks() {
    let mut random = Random::new(2);
    for length in 0..=LONGEST {
        let mask = random.bytes(length);
        assert_eq!(
            lend_input(&mask, library::ones),
            count_information(&mask) as u64
        );
    }
}

#[test]
fn ones_of_the_longest_masks() {
    assert_eq!(lend_input(&[0xFF; 65_536], library::ones), 8 * 65_536);
    assert_eq!(lend_input(&[0xFF; 65_537], library::ones), u64::MAX);
}
