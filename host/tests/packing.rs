//! The library's packing and unpacking, held to the reference for every count of bits of a code.

use host::reference::packing::{pack, packed_length, unpack};
use host::reference::sizes::LONGEST as MOST;
use host::testing::guard::{lend_input, lend_output};
use host::testing::library;
use host::testing::random::Random;

/// Runs a library function from `input` into an output that holds `before`; gives its answer and
/// the output after it.
fn run(f: fn(&[u8], &mut [u8]) -> u64, input: &[u8], before: &[u8]) -> (u64, Vec<u8>) {
    lend_input(input, |lent| lend_output(before, |output| f(lent, output)))
}

/// Runs it where it must refuse, and write nothing.
fn refused(f: fn(&[u8], &mut [u8]) -> u64, input: &[u8], before: &[u8]) {
    assert_eq!(run(f, input, before), (1, before.to_vec()), "{input:02x?}");
}

#[test]
fn pack_and_unpack() {
    let mut random = Random::new(1);
    for count in 0..=MOST {
        for _ in 0..4 {
            let bits = random.bits(count);
            let before = random.bytes(packed_length(count));
            assert_eq!(run(library::pack, &bits, &before), (0, pack(&bits)));

            let spare = random.below(3);
            let bytes = random.bytes(packed_length(count) + spare);
            let before = random.bytes(count);
            assert_eq!(
                run(library::unpack, &bytes, &before),
                (0, unpack(&bytes, count))
            );
            assert_eq!(run(library::unpack, &pack(&bits), &before), (0, bits));
        }
    }
}

#[test]
fn pack_refuses_wrong_lengths() {
    let mut random = Random::new(2);
    for count in 0..=MOST {
        let bits = random.bits(count);
        let right = packed_length(count);
        let wrong = [
            0,
            right.wrapping_sub(1),
            right + 1,
            right + 2,
            count,
            2 * right,
        ];
        for length in wrong.into_iter().filter(|&l| l != right && l <= 2 * MOST) {
            refused(library::pack, &bits, &random.bytes(length));
        }
    }
}

#[test]
fn pack_refuses_other_bytes_than_0_and_1() {
    let mut random = Random::new(3);
    for count in 1..=MOST {
        for place in [0, random.below(count), count - 1] {
            refuses_at(&mut random, count, place);
        }
    }
}

/// Other bytes at one place.
fn refuses_at(random: &mut Random, count: usize, place: usize) {
    let before = random.bytes(packed_length(count));
    for byte in [2, 3, 128, 255, random.byte() | 2] {
        let mut bits = random.bits(count);
        bits[place] = byte;
        refused(library::pack, &bits, &before);
    }
}

#[test]
fn unpack_refuses_too_few_bytes() {
    let mut random = Random::new(4);
    for length in 0..=MOST / 8 {
        let bytes = random.bytes(length);
        for excess in [1, 2, 7, 8, 9, MOST] {
            refused(library::unpack, &bytes, &random.bytes(8 * length + excess));
        }
    }
}
